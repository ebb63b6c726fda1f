//! Which of the ways to our side is taken.

#[cfg(linked)]
use super::direct::Direct;
use super::ours::Ours;
use super::port::Port;

/// How our side is called.
pub enum Way<'a> {
    /// The archive linked in, or the port where it can't be.
    Best,
    Port,
    /// Another port, a program of this machine.
    Program(&'a str),
}

pub fn ours(way: Way) -> Box<dyn Ours> {
    match way {
        #[cfg(linked)]
        Way::Best => Box::new(Direct::new()),
        Way::Program(program) => Box::new(Port::start(Some(program))),
        _ => Box::new(Port::start(None)),
    }
}
