//! The archive in a process of its own, behind port.c, which says what goes over the pipes.

use super::calls::{Call, Given, Query, Values, Volume};
use super::ours::{Ask, Noise, Ours, Timed};
use super::raw::{RawAsk, RawGiven};
use super::steps::{StepAsk, StepGiven};
use super::{sparse, wire};
use std::io::{BufReader, Result, Write};
use std::path::Path;
use std::process::{Child, ChildStdin, ChildStdout, Command, Stdio};

/// The calls of port.c that are none of the reader's: a copy, and the paths of a list, or the directories of a show, each by itself.
const COPY: u8 = 15;
const EACH: u8 = 16;

pub struct Port {
    child: Child,
    to: Option<ChildStdin>,
    from: BufReader<ChildStdout>,
    requests: Vec<u8>,
}

impl Port {
    /// Starts the port that was built with this program, under the kit's emulator where there is one; or a program of this machine.
    pub fn start(program: Option<&str>) -> Port {
        let tools = Path::new(env!("PORT_TOOLS"));
        let (loader, emulator) = (tools.join("lib/ld-linux-x86-64.so.2"), tools.join("bin/qemu-x86_64"));
        let mut command = match program {
            Some(program) => Command::new(program),
            None if emulator.exists() => Command::new(emulator),
            None => Command::new(&loader),
        };
        if program.is_none() {
            // The emulator is given the loader; on x86-64 the loader is the command.
            command.args(command.get_program().to_string_lossy().ends_with("qemu-x86_64").then_some(&loader));
            command.arg("--library-path").arg(tools.join("lib")).arg(env!("PORT"));
        }
        let mut child = command.stdin(Stdio::piped()).stdout(Stdio::piped()).spawn().expect("the port starts");
        let to = child.stdin.take();
        let from = BufReader::with_capacity(1 << 16, child.stdout.take().unwrap());
        Port { child, to, from, requests: Vec::new() }
    }

    fn given(&mut self) -> Result<Given> {
        let from = &mut self.from;
        let mut values = Values {
            answer: wire::number(from, 8)?,
            count: wire::number(from, 8)?,
            length: wire::number(from, 8)?,
            place: wire::number(from, 8)?,
            volume: wire::volume(from)?,
            icb: wire::icb(from)?,
            written: Vec::new(),
            rows: Vec::new(),
        };
        let held = wire::number(from, 1)? as u8;
        let n = wire::number(from, 4)? as usize;
        values.written = wire::bytes(from, n)?;
        for _ in 0..wire::number(from, 4)? {
            values.rows.push((wire::number(from, 8)?, wire::number(from, 4)? as u32));
        }
        Ok(Given { values, held })
    }

    fn raw_given(&mut self) -> Result<RawGiven> {
        let held = wire::number(&mut self.from, 1)? as u8;
        let n = wire::number(&mut self.from, 4)? as usize;
        Ok(RawGiven { said: wire::bytes(&mut self.from, n)?, held })
    }

    fn step_given(&mut self) -> Result<StepGiven> {
        let from = &mut self.from;
        let (answer, count, length) = (wire::number(from, 8)?, wire::number(from, 8)?, wire::number(from, 8)?);
        let values = Values { answer, count, length, volume: wire::volume(from)?, ..Values::default() };
        let mut given = StepGiven { values, held: wire::number(from, 1)? as u8, ..StepGiven::default() };
        let n = wire::number(from, 4)? as usize;
        given.values.written = wire::bytes(from, n)?;
        for _ in 0..wire::number(from, 4)? {
            given.wanted.push(wire::number(from, 8)?);
            given.arrived.push(wire::number(from, 8)?);
        }
        Ok(given)
    }

    fn put_query(&mut self, call: u8, ask: &Ask) {
        let to = &mut self.requests;
        wire::put(to, call as u64, 1);
        wire::put(to, ask.kept.is_some() as u64, 1);
        wire::put(to, ask.salt as u64, 1);
        wire::put_query(to, ask.query);
        // A sector beyond 2^32 is in no image that is compared.
        let kept: Vec<u64> = ask.kept.unwrap_or(&[]).iter().copied().filter(|s| *s < 1 << 32).collect();
        wire::put(to, kept.len() as u64, 4);
        for s in kept {
            wire::put(to, s, 4);
        }
    }

    fn send(&mut self) -> Result<()> {
        wire::put(&mut self.requests, b'F' as u64, 1);
        self.to.as_mut().unwrap().write_all(&self.requests)?;
        self.requests.clear();
        Ok(())
    }
}

impl Ours for Port {
    fn load(&mut self, image: &[u8], noise: Noise) {
        let (kind, seed) = match noise {
            Noise::Random(seed) => (0, seed),
            Noise::Shifted(by) => (1, by),
        };
        let packed = sparse::pack(image);
        let to = &mut self.requests;
        wire::put(to, b'I' as u64, 1);
        wire::put(to, kind, 1);
        wire::put(to, seed as u64, 4);
        wire::put(to, packed.len() as u64, 4);
        to.extend(packed);
    }

    fn answers(&mut self, asks: &[Ask]) -> Result<Vec<Given>> {
        for ask in asks {
            wire::put(&mut self.requests, b'Q' as u64, 1);
            self.put_query(ask.query.call as u8, ask);
        }
        self.send()?;
        asks.iter().map(|_| self.given()).collect()
    }

    fn raws(&mut self, asks: &[&RawAsk]) -> Result<Vec<RawGiven>> {
        for ask in asks {
            let to = &mut self.requests;
            wire::put(to, b'R' as u64, 1);
            wire::put(to, ask.call as u64, 1);
            wire::put(to, ask.salt as u64, 1);
            wire::put(to, ask.room as u64, 4);
            wire::put(to, ask.input.len() as u64, 4);
            to.extend(&ask.input);
        }
        self.send()?;
        asks.iter().map(|_| self.raw_given()).collect()
    }

    fn steps(&mut self, asks: &[&StepAsk]) -> Result<Vec<StepGiven>> {
        for ask in asks {
            wire::put(&mut self.requests, b'S' as u64, 1);
            self.put_query(ask.query.call as u8, &Ask { query: &ask.query, kept: None, salt: ask.salt });
            let to = &mut self.requests;
            wire::put(to, ask.slots as u64, 4);
            wire::put(to, ask.most as u64, 4);
            wire::put(to, ask.denied.is_some() as u64, 1);
            wire::put(to, ask.denied.unwrap_or(0), 8);
            wire::put(to, ask.wrong as u64, 4);
        }
        self.send()?;
        asks.iter().map(|_| self.step_given()).collect()
    }

    fn time(&mut self, timed: Timed, times: u32) -> Result<u64> {
        wire::put(&mut self.requests, b'T' as u64, 1);
        wire::put(&mut self.requests, times as u64, 4);
        match timed {
            Timed::Query(query) => self.put_query(query.call as u8, &Ask { query, kept: None, salt: 0 }),
            Timed::Each(query) => self.put_query(EACH, &Ask { query, kept: None, salt: 0 }),
            Timed::Copy(n) => {
                let query = Query::of(Call::Read, Volume::default()).with(n, 0);
                self.put_query(COPY, &Ask { query: &query, kept: None, salt: 0 });
            }
        }
        self.send()?;
        wire::number(&mut self.from, 8)
    }
}

impl Drop for Port {
    /// The end of its input is the end of its work.
    fn drop(&mut self) {
        self.to.take();
        let _ = self.child.wait();
    }
}
