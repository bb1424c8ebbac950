//! Random scripts: a seed always gives the same script and the same images.

pub mod body;
pub mod census;
pub mod damage;
pub mod garbage;
pub mod random;
pub mod set_up;
pub mod tree;
pub mod writer;

use writer::Writer;

/// A script and the images that it names.
pub struct Script {
    pub seed: u64,
    pub text: Vec<u8>,
    pub images: Vec<(String, Vec<u8>)>,
    /// What the script prints, but for the memory at the end.
    pub answers: Vec<u8>,
    /// The stack that the script ran over, as `slot turned skip`.
    pub stack: String,
    /// What happened that the answers do not tell.
    pub notes: Vec<String>,
}

/// The script of a seed, of 30 lines or more.
pub fn script(seed: u64) -> Script {
    let mut writer = Writer::new(seed);
    let start = set_up::set_up(&mut writer);
    // Over a store without pages there is little to see.
    let most = if writer.session.store().size() == 0 { 35 } else { 130 };
    let lines = writer.random.between(30, most) as usize;
    body::body(&mut writer, &start, lines);
    writer.done()
}
