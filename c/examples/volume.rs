// The wrapper for Rust at work, over a flash in memory:
//   rustc --edition 2024 -L native=c/build c/examples/volume.rs && ./volume
mod flash_volume;

use flash_volume::{Nand, Volume};
use std::ffi::c_int;

/// A flash in memory: of each page nothing, or its tag and data.
struct Memory {
    pages: Vec<Option<([u8; 48], Vec<u8>)>>,
    bad: [bool; 64],
}

impl Nand for Memory {
    fn sizes(&self) -> (u32, u32, u32) {
        (2048, 64, 64)
    }
    fn is_bad(&mut self, block: u32) -> Option<bool> {
        Some(self.bad[block as usize])
    }
    fn read(&mut self, block: u32, page: u32, data: Option<&mut [u8]>, tag: &mut [u8; 48]) -> Option<c_int> {
        let Some((its_tag, its_data)) = &self.pages[(block * 64 + page) as usize] else { return Some(0) };
        *tag = *its_tag;
        data.map(|data| data.copy_from_slice(its_data));
        Some(1)
    }
    fn program(&mut self, block: u32, page: u32, data: &[u8], tag: &[u8; 48]) -> Option<bool> {
        self.pages[(block * 64 + page) as usize] = Some((*tag, data.to_vec()));
        Some(true)
    }
    fn erase(&mut self, block: u32) -> Option<bool> {
        self.pages[block as usize * 64..][..64].fill(None);
        Some(true)
    }
    fn mark_bad(&mut self, block: u32) -> Option<()> {
        self.bad[block as usize] = true;
        Some(())
    }
}

fn main() -> Result<(), i64> {
    let nand = Memory { pages: vec![None; 64 * 64], bad: [false; 64] };
    let mut volume = Volume::mount(nand, 2)?;
    volume.as_mut().mkdir("/logs", 1)?;
    volume.as_mut().append("/logs/today", b"started\n", 2)?;
    let (info, mut start) = (volume.as_mut().write_at("/logs/today", b"S", 0, 3)?, [0; 5]);
    assert_eq!((info.size, volume.as_mut().read_at("/logs/today", &mut start, 0)?, &start), (8, 5, b"Start"));
    println!("{}", volume.as_mut().list("/logs")?.join(" "));
    volume.as_mut().unmount()?;
    Ok(())
}
