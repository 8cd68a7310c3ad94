//! What the stores are tried with: the page's keeper of whole images, random images and calls to feed it, and the
//! course that puts one list of calls to several stores and the keeper and compares all they answer and leave.

pub mod apart;
pub mod beside;
pub mod bills;
pub mod blanks;
pub mod calls;
pub mod chain;
pub mod chains;
pub mod closings;
pub mod collected;
pub mod collision;
pub mod course;
pub mod dated;
pub mod day;
pub mod days;
pub mod dense;
pub mod disks;
pub mod events;
mod expected;
pub mod flash;
pub mod images;
pub mod inspect;
pub mod keys;
pub mod limits;
pub mod lookups;
pub mod messages;
pub mod retires;
pub mod sent;
pub mod settings;
pub mod sketch;
pub mod small;
pub mod staff;
pub mod stock;
pub mod together;
pub mod trial;
pub mod whole;
pub mod words;

mod random;

pub use calls::Call;
pub use course::Course;
pub use random::Random;
pub use whole::Keeper;
