//! The original in a process of its own, where it may abort: an absurd information length makes it ask for as much memory.

use super::calls::{Call, Query};
use super::expect::Expected;
use super::original::{Logged, long, number};
use super::{sparse, wire};
use crate::udf::{UdfDisc, within};
use std::io::{Result, Write, stdin};
use std::process::{Command, Stdio};

/// The child: reads an image and a query, asks the original as it is, and prints answer and length.
pub fn child() -> Result<()> {
    let from = &mut stdin().lock();
    let n = wire::number(from, 4)? as usize;
    let image = sparse::expand(&wire::bytes(from, n)?).expect("a packed image");
    let call = Call::ALL[wire::number(from, 1)? as usize];
    let v = wire::volume(from)?;
    let icb = long(wire::icb(from)?);
    // Room, work space, choices, rows, levels and budget are none of its own.
    wire::bytes(from, 36)?;
    let n = wire::number(from, 4)? as usize;
    let path = String::from_utf8_lossy(&wire::bytes(from, n)?).into_owned();
    let mut disc: UdfDisc<Logged> = within::disc(Logged::new(&image), v.start, v.partition, long(v.root));
    let came = match call {
        Call::Read => disc.read_file(icb).map(|b| b.len()),
        Call::List => disc.read_directory(icb).map(|_| 0),
        Call::ReadPath => disc.read_path(&path).map(|b| b.len()),
        _ => disc.lookup(&path).map(|_| 0),
    };
    match came {
        Ok(length) => println!("0 {length}"),
        Err(e) => println!("{} 0", number(&e)),
    }
    Ok(())
}

/// How the original ended: aborted, stopped by a panic, or with an answer, which is then held to what was expected.
pub fn ask(image: &[u8], q: &Query, e: &Expected) -> std::result::Result<String, String> {
    let packed = sparse::pack(image);
    let mut request = Vec::new();
    wire::put(&mut request, packed.len() as u64, 4);
    request.extend(packed);
    wire::put(&mut request, q.call as u64, 1);
    wire::put_query(&mut request, q);
    let mut child = Command::new(std::env::current_exe().unwrap())
        .arg("--original-child")
        .stdin(Stdio::piped())
        .stdout(Stdio::piped())
        .stderr(Stdio::null())
        .spawn()
        .expect("a process of its own starts");
    // A request that isn't read is seen by the status.
    let _ = child.stdin.take().unwrap().write_all(&request);
    let out = child.wait_with_output().unwrap();
    match out.status.code() {
        None => Ok("aborted".to_string()),
        // Under an emulator a program can't start itself.
        Some(127) => Ok("not tried".to_string()),
        Some(101) => Ok("stopped by a panic".to_string()),
        Some(0) => {
            let said = String::from_utf8(out.stdout).unwrap();
            // Lookups and listings give no length, and refusals for want of memory are ours alone.
            let full = if matches!(q.call, Call::Read | Call::ReadPath) { e.full } else { 0 };
            let answer = if e.values.answer > 4 { 0 } else { e.values.answer };
            let wanted = format!("{answer} {full}\n");
            if said == wanted || e.values.answer == 6 { Ok("answered".to_string()) } else { Err(said) }
        }
        Some(n) => Err(format!("status {n}")),
    }
}
