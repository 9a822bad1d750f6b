//! A model of documents 01 and 02, written from the documents alone, and the proved library beside it.
//! The model speaks the documents' words (kiosk, keeper, ticket), so that it can be held against the text.

pub mod archive;
pub mod author;
pub mod both;
pub mod broken;
pub mod fault;
pub mod files;
pub mod gallery;
pub mod histories;
pub mod index;
pub mod keeper;
pub mod kiosk;
pub mod library;
pub mod lister;
pub mod model;
pub mod packet;
pub mod players;
pub mod random;
pub mod records;
pub mod samples;
pub mod script;
pub mod setting;
pub mod simulation;
