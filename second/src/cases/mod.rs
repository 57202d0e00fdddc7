//! What is asked of both sides: cases of calls and inputs of the program `steps`,
//! drawn at random, and the documents' figures. It knows the model alone.

pub mod arguments;
pub mod case;
pub mod damage;
pub mod edges;
pub mod ends;
pub mod figure;
pub mod figures;
pub mod hostile;
pub mod lawful;
pub mod not_reported;
pub mod oldest;
pub mod random;
pub mod rolled_back;
pub mod slots;
pub mod steps_input;
