//! Cases by chance and stored ones, to compare on: what is tried.

pub mod books;
pub mod calls;
pub mod cases;
pub mod damages;
pub mod desk;
pub mod dice;
pub mod doubts;
pub mod farms;
pub mod grams;
pub mod grazings;
pub mod halves;
pub mod pairs;
pub mod parts;
pub mod plain;
pub mod rows;
pub mod sets;
pub mod slips;
pub mod states;
pub mod texts;
pub mod tillages;
pub mod trial;
pub mod warmings;
pub mod whole_books;
pub mod writes;
