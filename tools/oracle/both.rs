//! The port and the Rust side by side over writes and screens: each answer is compared, and what the command buffer holds past it,
//! and every byte of the block at each command and screen.

use crate::block;
use crate::counts::{self, count};
use crate::event::Event;
use crate::oracle::Oracle;
use crate::port::{COMMAND_LEN, NOTHING, play, update_screen, write_joypad};

/// The port's block and command buffer, and the Rust beside them with what the buffer must hold.
pub struct Both {
    port: Vec<u8>,
    buffer: Vec<u8>,
    rust: Oracle,
    due: Vec<u8>,
}

/// A buffer in which a byte that is written, or moved, is seen.
pub fn marked(len: usize) -> Vec<u8> {
    (0..len).map(|i| 0xA5 ^ i as u8).collect()
}

impl Both {
    /// `spare`: bytes that the buffer has past those that it must have.
    pub fn load(block: &[u8], spare: usize) -> Self {
        Both::beside(block, Oracle::load(block), spare)
    }

    /// A block, and a unit that must be the same.
    pub fn beside(block: &[u8], rust: Oracle, spare: usize) -> Self {
        counts::start(block);
        Both {
            port: block.to_vec(),
            buffer: marked(COMMAND_LEN + spare),
            rust,
            due: marked(COMMAND_LEN + spare),
        }
    }

    /// The port's block and the Rust's unit as they stand.
    pub fn sides(&self) -> (&[u8], &Oracle) {
        (&self.port, &self.rust)
    }

    pub fn event(&mut self, event: &Event, by: By) -> Result<(), String> {
        match event {
            Event::Writes(writes) => drop(self.line(writes, by)?),
            Event::Screen(screen) => drop(self.screen(screen)?),
        }
        Ok(())
    }

    /// The command that it completes, or no byte.
    pub fn write(&mut self, value: u8) -> Result<Vec<u8>, String> {
        let told = write_joypad(&mut self.port, value, &mut self.buffer);
        let command = self.rust.write(value).unwrap_or_default();
        let packets = command.len() as u32 / 16;
        if told != packets {
            return Err(format!("write {value:02X}: {told:X}, the Rust {packets:X}"));
        }
        count(|c| c.writes += 1);
        self.complete(&command)?;
        Ok(command)
    }

    /// Writes in a row by `play`, which ends at each command: each with the number of the write that completes it.
    pub fn play(&mut self, writes: &[u8]) -> Result<Vec<(usize, Vec<u8>)>, String> {
        let (mut from, mut commands) = (0, Vec::new());
        while from < writes.len() {
            let writes = &writes[from..];
            let told = play(&mut self.port, writes, &mut self.buffer);
            let (at, command) = self.rust.play(writes);
            let due = at << 8 | command.len() / 16;
            if told != due {
                return Err(format!(
                    "play of {} writes: {told:X}, the Rust {due:X}",
                    writes.len()
                ));
            }
            count(|c| c.played += at as u64);
            self.complete(&command)?;
            from += at;
            if !command.is_empty() {
                commands.push((from - 1, command));
            }
        }
        Ok(commands)
    }

    /// The same by the public call, write by write.
    pub fn write_all(&mut self, writes: &[u8]) -> Result<Vec<(usize, Vec<u8>)>, String> {
        let mut commands = Vec::new();
        for (at, value) in writes.iter().enumerate() {
            let command = self.write(*value)?;
            if !command.is_empty() {
                commands.push((at, command));
            }
        }
        Ok(commands)
    }

    pub fn line(&mut self, writes: &[u8], by: By) -> Result<Vec<(usize, Vec<u8>)>, String> {
        match by {
            By::Write => self.write_all(writes),
            By::Play => self.play(writes),
        }
    }

    /// The buffer, and the block if there is a command.
    fn complete(&mut self, command: &[u8]) -> Result<(), String> {
        self.due[..command.len()].copy_from_slice(command);
        if self.buffer != self.due {
            let (a, b) = (&self.buffer, &self.due);
            return Err(format!("command {a:02X?}, the Rust {b:02X?}"));
        }
        if command.is_empty() {
            return Ok(());
        }
        counts::command(command);
        self.same()
    }

    pub fn screen(&mut self, screen: &[u8]) -> Result<u32, String> {
        let told = update_screen(&mut self.port, screen);
        let landed = self.rust.screen(screen).map_or(NOTHING, u32::from);
        if told != landed {
            return Err(format!("a screen: {told:X}, the Rust {landed:X}"));
        }
        count(|c| {
            c.screens += 1;
            c.landings.get_mut(told as usize).map(|n| *n += 1);
        });
        self.same()?;
        Ok(told)
    }

    pub fn same(&self) -> Result<(), String> {
        count(|c| c.compared += 1);
        block::difference(&self.port, &self.rust.save())
    }

    /// The port's block, at the end of all.
    pub fn ended(self) -> Result<Vec<u8>, String> {
        self.same()?;
        Ok(self.port)
    }
}

/// How the port takes a line of writes: one by one by the public call, or in a row as a log's line is taken.
#[derive(Clone, Copy)]
pub enum By {
    Write,
    Play,
}

/// Both take the events: the same answers and buffers, and the same block at each command and screen and at the end.
pub fn follow(block: &[u8], spare: usize, events: &[Event], by: By) -> Result<(), String> {
    let mut both = Both::load(block, spare);
    events.iter().try_for_each(|event| both.event(event, by))?;
    both.same()
}
