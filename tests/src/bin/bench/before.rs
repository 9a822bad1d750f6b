//! The client's calls of an earlier library, where SIGMA_BEFORE_CAPI names its archive: a libsigma.a, or a libcapi.a from before all
//! calls were in one. It is made into a shared library and opened, so that its calls stand beside the present ones of the same names.

use std::ffi::{c_char, c_int, c_void, CString};
use std::path::PathBuf;
use std::process::Command;

extern "C" {
    fn dlopen(path: *const c_char, mode: c_int) -> *mut c_void;
    fn dlsym(library: *mut c_void, name: *const c_char) -> *mut c_void;
}

const NOW: c_int = 2;

type New = unsafe extern "C" fn(u32, u32, u32, *mut u32, usize) -> u32;
type Step = unsafe extern "C" fn(*mut u32, usize, *mut u8, usize, *mut u32, usize) -> u32;
type Message = unsafe extern "C" fn(*mut u32, usize, *const u32, usize, *mut u8, usize, *mut u32, usize) -> u32;

#[derive(Clone, Copy)]
pub struct Before {
    new: New,
    begin: Step,
    message: Message,
    exit: Step,
}

impl Before {
    pub fn open() -> Option<Before> {
        let archive = std::env::var_os("SIGMA_BEFORE_CAPI").map(PathBuf::from)?;
        let shared = std::env::temp_dir().join(format!("sigma-before-{}.so", std::process::id()));
        let linked = Command::new("cc")
            .args(["-shared", "-Wl,--whole-archive"])
            .arg(&archive)
            .args(["-Wl,--no-whole-archive", "-o"])
            .arg(&shared)
            .status();
        assert!(linked.is_ok_and(|status| status.success()), "{} is no archive that can be linked", archive.display());
        let path = CString::new(shared.to_string_lossy().as_bytes()).expect("a path");
        let library = unsafe { dlopen(path.as_ptr(), NOW) };
        std::fs::remove_file(&shared).expect("its name is not needed");
        let call = |name: &str| {
            let symbol = CString::new(name).expect("a name");
            let call = if library.is_null() { library } else { unsafe { dlsym(library, symbol.as_ptr()) } };
            assert!(!call.is_null(), "{name} is not in {}", archive.display());
            call
        };
        // The types are those of include/sigma.h, which the earlier one had too.
        unsafe {
            Some(Before {
                new: std::mem::transmute::<*mut c_void, New>(call("sigma_client_new")),
                begin: std::mem::transmute::<*mut c_void, Step>(call("sigma_client_begin")),
                message: std::mem::transmute::<*mut c_void, Message>(call("sigma_client_message")),
                exit: std::mem::transmute::<*mut c_void, Step>(call("sigma_client_exit")),
            })
        }
    }

    pub fn client_new(&self, n: u32, m: u32, id: u32, record: &mut [u32]) -> u32 {
        unsafe { (self.new)(n, m, id, record.as_mut_ptr(), record.len()) }
    }

    pub fn client_begin(&self, record: &mut [u32], out: &mut [u8], sent: &mut [u32]) -> u32 {
        unsafe { (self.begin)(record.as_mut_ptr(), record.len(), out.as_mut_ptr(), out.len(), sent.as_mut_ptr(), sent.len()) }
    }

    pub fn client_message(&self, record: &mut [u32], message: &[u32], out: &mut [u8], sent: &mut [u32]) -> u32 {
        let (r, m, o, s) = (record.as_mut_ptr(), message.as_ptr(), out.as_mut_ptr(), sent.as_mut_ptr());
        unsafe { (self.message)(r, record.len(), m, message.len(), o, out.len(), s, sent.len()) }
    }

    pub fn client_exit(&self, record: &mut [u32], out: &mut [u8], sent: &mut [u32]) -> u32 {
        unsafe { (self.exit)(record.as_mut_ptr(), record.len(), out.as_mut_ptr(), out.len(), sent.as_mut_ptr(), sent.len()) }
    }

    /// The words of the record that its steps take, of these; none where n is out of its range.
    pub fn words(&self, n: u32, m: u32, forms: &[usize]) -> Option<usize> {
        let (mut record, mut out) = (vec![0; 1 << 12], vec![0; 12 * n as usize]);
        let mut takes = |words: usize| {
            self.client_new(n, m, 5, &mut record) == 0 && self.client_begin(&mut record[..words], &mut out, &mut [0; 2]) == 0
        };
        forms.iter().copied().find(|&words| takes(words))
    }
}
