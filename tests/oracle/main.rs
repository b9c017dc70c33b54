// The oracle: reads trials on standard input and writes the answers that documents 01 and 02 (items 1 and 4) demand.
// Written from these alone; with the library and the tests' sheets it shares no code, only the limits' names.
//
//   oracle             answers the questions of each trial
//   oracle program     writes what the program writes, with the same standard input
//   oracle words WORD FILE..       writes what the program writes when called with these; after 'reply' they are
//                                  one sheet and one reply. After 'make', and where its name ends in .rule, a file
//                                  is a plain text
//   oracle sheets EVERY FOLDER     writes the sheet of every EVERYth trial to a file of its own
//   oracle pairs EVERY FOLDER      the same, and behind .reply the reply
//
// A trial is: sheet length, reply length, number of questions (u32 each), the sheet, the reply, then for each question
// its subject (one byte: 1 read, 2 name, 3 block, 4 check, 5 tally, 6 script, 7 ask, 8 reply, 9 digits, 10 make, 11
// text, 12 the text of what make makes, 13 what make makes of the text) and a number (u64). For 10 and 12 a plain text
// stands in the sheet's place. Where the reply isn't asked about, it has no bytes. An answer is a u64 and,
// where the question lends a room, the whole room afterwards. All little-endian. For a room, the number's
// low 32 bits are its length and the high 32 a pattern: byte i of the room is first the highest byte of
// pattern * (2 i + 1), taken modulo 2^32.

mod answers;
mod blocks;
mod cases;
#[path = "../limits.rs"]
mod limits;
mod making;
mod reading;
mod replies;
mod script;
mod texts;
mod trees;
mod variables;

use answers::Asked;
use std::ffi::OsString;
use std::fs;
use std::io::{self, BufReader, BufWriter, Read, Write};
use std::os::unix::ffi::OsStrExt;

fn main() -> io::Result<()> {
    let mut input = BufReader::with_capacity(1 << 20, io::stdin());
    let mut output = BufWriter::with_capacity(1 << 20, io::stdout());
    // Names of files are bytes.
    let words: Vec<OsString> = std::env::args_os().skip(1).collect();
    let named: Vec<&str> = words.iter().map_while(|word| word.to_str()).collect();
    match named[..] {
        [] => answer(&mut input, &mut output)?,
        ["program"] => {
            let mut bytes = Vec::new();
            input.read_to_end(&mut bytes)?;
            output.write_all(answers::said("script", &bytes).as_bytes())?;
        }
        ["words", "reply", sheet, reply] => {
            let said = answers::said_of_reply(sheet, &fs::read(sheet)?, &fs::read(reply)?);
            output.write_all(said.as_bytes())?
        }
        ["words", word, ..] => answer_words(word, &words[2..], &mut output)?,
        ["sheets", every, folder] => write_sheets(&mut input, every.parse().unwrap(), folder, false)?,
        ["pairs", every, folder] => write_sheets(&mut input, every.parse().unwrap(), folder, true)?,
        _ => panic!("{:?} is nothing that the oracle knows", words),
    }
    output.flush()
}

fn answer_words(word: &str, files: &[OsString], output: &mut impl Write) -> io::Result<()> {
    for file in files {
        if files.len() > 1 {
            output.write_all(file.as_bytes())?;
            output.write_all(b": ")?;
        }
        output.write_all(&answers::said_of_file(word, file.as_bytes(), &fs::read(file)?))?;
    }
    Ok(())
}

fn write_sheets(input: &mut impl Read, every: usize, folder: &str, replies: bool) -> io::Result<()> {
    let mut number = 0;
    while let Some(Trial { sheet, reply, .. }) = next_trial(input)? {
        if number % every == 0 {
            fs::write(format!("{}/{}", folder, number), sheet)?;
            if replies {
                fs::write(format!("{}/{}.reply", folder, number), reply)?;
            }
        }
        number += 1;
    }
    Ok(())
}

fn answer(input: &mut impl Read, output: &mut impl Write) -> io::Result<()> {
    while let Some(trial) = next_trial(input)? {
        let mut asked = Asked::about(trial.sheet, trial.reply);
        for (subject, number) in trial.questions {
            output.write_all(&asked.answer(subject, number))?;
        }
    }
    Ok(())
}

struct Trial {
    sheet: Vec<u8>,
    reply: Vec<u8>,
    questions: Vec<(u8, u64)>,
}

fn next_trial(input: &mut impl Read) -> io::Result<Option<Trial>> {
    let mut head = [0; 12];
    if input.read(&mut head[..1])? == 0 {
        return Ok(None);
    }
    input.read_exact(&mut head[1..])?;
    let number =
        |at: usize| u32::from_le_bytes([head[at], head[at + 1], head[at + 2], head[at + 3]]) as usize;
    let (mut sheet, mut reply) = (vec![0; number(0)], vec![0; number(4)]);
    input.read_exact(&mut sheet)?;
    input.read_exact(&mut reply)?;
    let questions = (0..number(8)).map(|_| next_question(input)).collect::<io::Result<_>>()?;
    Ok(Some(Trial { sheet, reply, questions }))
}

fn next_question(input: &mut impl Read) -> io::Result<(u8, u64)> {
    let (mut subject, mut number) = ([0], [0; 8]);
    input.read_exact(&mut subject)?;
    input.read_exact(&mut number)?;
    Ok((subject[0], u64::from_le_bytes(number)))
}
