//! The proved library's C interface, as include/sigma.h declares it.

extern "C" {
    fn sigma_read(bytes: *const u8, bytes_len: usize, words: *mut u32, words_len: usize) -> u32;
    fn sigma_write(words: *const u32, words_len: usize, out: *mut u8, out_len: usize) -> u32;
    fn sigma_packet_next(packet: *const u8, packet_len: usize, at: usize, words: *mut u32, words_len: usize) -> u32;
    fn sigma_packet_pack(bytes: *const u8, bytes_len: usize, out: *mut u8, out_len: usize) -> u32;
    fn sigma_server_new(n: u32, id: u32, record: *mut u32, record_len: usize) -> u32;
    fn sigma_server_message(
        record: *mut u32,
        record_len: usize,
        message: *const u32,
        message_len: usize,
        out: *mut u8,
        out_len: usize,
        sent: *mut u32,
        sent_len: usize,
    ) -> u32;
    fn sigma_server_suspect(record: *mut u32, r: usize, out: *mut u8, o: usize, sent: *mut u32, s: usize) -> u32;
    fn sigma_server_check(record: *mut u32, r: usize, out: *mut u8, o: usize, sent: *mut u32, s: usize) -> u32;
    fn sigma_client_new(n: u32, m: u32, id: u32, record: *mut u32, record_len: usize) -> u32;
    fn sigma_client_begin(record: *mut u32, r: usize, out: *mut u8, o: usize, sent: *mut u32, s: usize) -> u32;
    fn sigma_client_exit(record: *mut u32, r: usize, out: *mut u8, o: usize, sent: *mut u32, s: usize) -> u32;
    fn sigma_client_message(
        record: *mut u32,
        record_len: usize,
        message: *const u32,
        message_len: usize,
        out: *mut u8,
        out_len: usize,
        sent: *mut u32,
        sent_len: usize,
    ) -> u32;
    fn sigma_server_upgrade(saved: *const u32, saved_len: usize, record: *mut u32, record_len: usize) -> u32;
    fn sigma_client_upgrade(saved: *const u32, saved_len: usize, record: *mut u32, record_len: usize) -> u32;
    fn sigma_setting(n: u32, m: u32, f: u32, words: *mut u32, words_len: usize) -> u32;
    fn sigma_run_event(n: u32, m: u32, f: u32, i: u32, words: *mut u32, words_len: usize) -> u32;
    fn sigma_default_threshold(n: u32, words: *mut u32, words_len: usize) -> u32;
    fn sigma_script_new(state: *mut u32, state_len: usize) -> u32;
    fn sigma_script_feed(
        state: *mut u32,
        state_len: usize,
        input: *const u8,
        input_len: usize,
        out: *mut u8,
        out_len: usize,
        counts: *mut usize,
        counts_len: usize,
    ) -> u32;
    fn sigma_script_finish(state: *mut u32, s: usize, out: *mut u8, o: usize, counts: *mut usize, c: usize) -> u32;
    fn sigma_simulation_new(n: u32, m: u32, f: u32, clients: u32, words: *mut u32, words_len: usize) -> u32;
    fn sigma_simulation_event(words: *mut u32, w: usize, kind: u32, number: u32, answer: *mut u32, a: usize) -> u32;
}

// No call has a `requires`: any slices that Rust can lend are in order.

pub fn read(bytes: &[u8], words: &mut [u32]) -> u32 {
    unsafe { sigma_read(bytes.as_ptr(), bytes.len(), words.as_mut_ptr(), words.len()) }
}

pub fn write(words: &[u32], out: &mut [u8]) -> u32 {
    unsafe { sigma_write(words.as_ptr(), words.len(), out.as_mut_ptr(), out.len()) }
}

pub fn packet_next(packet: &[u8], at: usize, words: &mut [u32]) -> u32 {
    unsafe { sigma_packet_next(packet.as_ptr(), packet.len(), at, words.as_mut_ptr(), words.len()) }
}

pub fn packet_pack(bytes: &[u8], out: &mut [u8]) -> u32 {
    unsafe { sigma_packet_pack(bytes.as_ptr(), bytes.len(), out.as_mut_ptr(), out.len()) }
}

pub fn server_new(n: u32, id: u32, record: &mut [u32]) -> u32 {
    unsafe { sigma_server_new(n, id, record.as_mut_ptr(), record.len()) }
}

pub fn server_message(record: &mut [u32], message: &[u32], out: &mut [u8], sent: &mut [u32]) -> u32 {
    let (r, m, o, s) = (record.as_mut_ptr(), message.as_ptr(), out.as_mut_ptr(), sent.as_mut_ptr());
    unsafe { sigma_server_message(r, record.len(), m, message.len(), o, out.len(), s, sent.len()) }
}

pub fn server_suspect(record: &mut [u32], out: &mut [u8], sent: &mut [u32]) -> u32 {
    let (r, o, s) = (record.as_mut_ptr(), out.as_mut_ptr(), sent.as_mut_ptr());
    unsafe { sigma_server_suspect(r, record.len(), o, out.len(), s, sent.len()) }
}

pub fn server_check(record: &mut [u32], out: &mut [u8], sent: &mut [u32]) -> u32 {
    let (r, o, s) = (record.as_mut_ptr(), out.as_mut_ptr(), sent.as_mut_ptr());
    unsafe { sigma_server_check(r, record.len(), o, out.len(), s, sent.len()) }
}

pub fn client_new(n: u32, m: u32, id: u32, record: &mut [u32]) -> u32 {
    unsafe { sigma_client_new(n, m, id, record.as_mut_ptr(), record.len()) }
}

pub fn client_begin(record: &mut [u32], out: &mut [u8], sent: &mut [u32]) -> u32 {
    let (r, o, s) = (record.as_mut_ptr(), out.as_mut_ptr(), sent.as_mut_ptr());
    unsafe { sigma_client_begin(r, record.len(), o, out.len(), s, sent.len()) }
}

pub fn client_exit(record: &mut [u32], out: &mut [u8], sent: &mut [u32]) -> u32 {
    let (r, o, s) = (record.as_mut_ptr(), out.as_mut_ptr(), sent.as_mut_ptr());
    unsafe { sigma_client_exit(r, record.len(), o, out.len(), s, sent.len()) }
}

pub fn client_message(record: &mut [u32], message: &[u32], out: &mut [u8], sent: &mut [u32]) -> u32 {
    let (r, m, o, s) = (record.as_mut_ptr(), message.as_ptr(), out.as_mut_ptr(), sent.as_mut_ptr());
    unsafe { sigma_client_message(r, record.len(), m, message.len(), o, out.len(), s, sent.len()) }
}

pub fn server_upgrade(saved: &[u32], record: &mut [u32]) -> u32 {
    unsafe { sigma_server_upgrade(saved.as_ptr(), saved.len(), record.as_mut_ptr(), record.len()) }
}

pub fn client_upgrade(saved: &[u32], record: &mut [u32]) -> u32 {
    unsafe { sigma_client_upgrade(saved.as_ptr(), saved.len(), record.as_mut_ptr(), record.len()) }
}

pub fn setting(n: u32, m: u32, f: u32, words: &mut [u32]) -> u32 {
    unsafe { sigma_setting(n, m, f, words.as_mut_ptr(), words.len()) }
}

pub fn run_event(n: u32, m: u32, f: u32, i: u32, words: &mut [u32]) -> u32 {
    unsafe { sigma_run_event(n, m, f, i, words.as_mut_ptr(), words.len()) }
}

pub fn default_threshold(n: u32, words: &mut [u32]) -> u32 {
    unsafe { sigma_default_threshold(n, words.as_mut_ptr(), words.len()) }
}

pub fn script_new(state: &mut [u32]) -> u32 {
    unsafe { sigma_script_new(state.as_mut_ptr(), state.len()) }
}

pub fn script_feed(state: &mut [u32], input: &[u8], out: &mut [u8], counts: &mut [usize]) -> u32 {
    let (s, i, o, c) = (state.as_mut_ptr(), input.as_ptr(), out.as_mut_ptr(), counts.as_mut_ptr());
    unsafe { sigma_script_feed(s, state.len(), i, input.len(), o, out.len(), c, counts.len()) }
}

pub fn script_finish(state: &mut [u32], out: &mut [u8], counts: &mut [usize]) -> u32 {
    let (s, o, c) = (state.as_mut_ptr(), out.as_mut_ptr(), counts.as_mut_ptr());
    unsafe { sigma_script_finish(s, state.len(), o, out.len(), c, counts.len()) }
}

pub fn simulation_new(n: u32, m: u32, f: u32, clients: u32, words: &mut [u32]) -> u32 {
    unsafe { sigma_simulation_new(n, m, f, clients, words.as_mut_ptr(), words.len()) }
}

pub fn simulation_event(words: &mut [u32], kind: u32, number: u32, answer: &mut [u32]) -> u32 {
    let (w, a) = (words.as_mut_ptr(), answer.as_mut_ptr());
    unsafe { sigma_simulation_event(w, words.len(), kind, number, a, answer.len()) }
}
