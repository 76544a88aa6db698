//! The requests about a hash, whose state lives from line to line.
//!   sha_new                 a fresh state, started
//!   sha_start               the state that is there, started
//!   sha_add BYTES           how long the message is now
//!   sha_finish              the digest
//!   sha_finish_in ROOM      the same, with so much room for it
//! Three words only look at the lent bytes and set them:
//!   sha_look                the first 104 of them
//!   sha_load BYTES          any bytes, of any number
//!   sha_set LENGTH          a state that claims this length: the words of the start, as many zeros as wait, ee behind
//! And one message, in one piece or in more, apart from that state:
//!   sha256 BYTES [BYTES ..]

use crate::{bytes, hex, number, told};
use reference::answer::Answer;
use reference::hash::{self, DIGEST, STATE};

pub struct HashSession {
    state: Vec<u8>,
}

impl HashSession {
    pub fn new() -> HashSession {
        HashSession { state: started() }
    }

    /// None where the line is no such request.
    pub fn answer(&mut self, line: &str) -> Option<String> {
        let words: Vec<&str> = line.split(' ').collect();
        Some(match words[..] {
            ["sha_new"] => {
                self.state = started();
                "ok".into()
            }
            ["sha_start"] => told(hash::start(&mut self.state).map(|_| "ok".into())),
            ["sha_add", piece] => told(hash::add(&mut self.state, &bytes(piece)?).map(|_| self.length())),
            ["sha_finish"] => digest(&self.state, DIGEST),
            ["sha_finish_in", room] => digest(&self.state, number(room)? as usize),
            ["sha_look"] => format!("ok {}", hex(&self.state[..STATE.min(self.state.len())])),
            ["sha_load", state] => {
                self.state = bytes(state)?;
                "ok".into()
            }
            ["sha_set", length] => {
                self.state = claiming(number(length)?);
                "ok".into()
            }
            ["sha256", ref pieces @ ..] if !pieces.is_empty() => {
                let pieces: Option<Vec<Vec<u8>>> = pieces.iter().map(|piece| bytes(piece)).collect();
                let mut state = started();
                let added: Answer<Vec<usize>> = pieces?.iter().map(|piece| hash::add(&mut state, piece)).collect();
                added.map_or_else(|refusal| told(Err(refusal)), |_| digest(&state, DIGEST))
            }
            _ => return None,
        })
    }

    fn length(&self) -> String {
        format!("ok {}", u64::from_le_bytes(self.state[32..40].try_into().unwrap()))
    }
}

fn started() -> Vec<u8> {
    let mut state = vec![0xee; STATE];
    hash::start(&mut state).unwrap();
    state
}

fn claiming(length: u64) -> Vec<u8> {
    let mut state = started();
    state[32..40].copy_from_slice(&length.to_le_bytes());
    state[40 + (length % 64) as usize..].fill(0xee);
    state
}

fn digest(state: &[u8], room: usize) -> String {
    let mut out = vec![0; room];
    told(hash::finish(state, &mut out).map(|length| format!("ok {}", hex(&out[..length]))))
}
