//! Asks a program for answers over a pipe, many at a time: `examples/answers.c` says the
//! format. How a comparison by such answers begins and ends stands here too.

use crate::comparing::{arguments, finish, number};
use crate::dice::Dice;
use crate::texts::Family;
use std::io::{BufWriter, Read, Write};
use std::process::{Child, ChildStdin, ChildStdout, Command, Stdio};

/// Neither pipe may be full with both sides writing: so many bytes of questions, and far
/// fewer of answers, fit.
const MOST_WAITING: usize = 30_000;
/// What a program is asked, with what this one says of it.
pub trait Question {
    /// The byte before a question of this sort.
    fn sort(&self) -> u8;

    fn bytes(&self) -> &[u8];

    /// In how many surroundings the C side lends the bytes; it answers for each.
    fn surroundings(&self) -> usize;

    /// Bytes of one answer.
    fn answer_length(&self) -> usize;

    /// A difference ends the run.
    fn demand_same(&self, answer: &[u8]);
}

pub struct Asking<Asked> {
    child: Child,
    questions: BufWriter<ChildStdin>,
    answers: ChildStdout,
    /// Questions whose answers have not been taken, and the most bytes that these can have
    /// brought into either pipe.
    open: Vec<Asked>,
    waiting: usize,
}

/// PROGRAM [SEED]: asks the program about every input of every family, and says how many
/// each family has. Other arguments end the run with status 2.
pub fn ask_all<Asked: Question>(
    usage: &str,
    usual_seed: u64,
    families: &[Family],
    mut question: impl FnMut(&[u8]) -> Asked,
) -> Asking<Asked> {
    let given = arguments(usage);
    let seed = number(&given, 1, usage).unwrap_or(usual_seed);
    println!("seed {seed}");
    let mut asking = Asking::of(&given[0]).unwrap_or_else(|fault| finish(&[fault]));
    let mut dice = Dice::new(seed);
    let longest = families.iter().map(|family| family.name.len()).max();
    let width = longest.unwrap_or(0) + 2;
    for family in families {
        let mut count = 0;
        (family.make)(&mut dice, &mut |input| {
            asking.ask(question(input));
            count += 1;
        });
        println!("{:<width$} {count:>8}", family.name);
    }
    asking.hold_against_answers();
    asking
}

impl<Asked: Question> Asking<Asked> {
    pub fn of(program: &str) -> Result<Asking<Asked>, String> {
        let started = Command::new(program)
            .stdin(Stdio::piped())
            .stdout(Stdio::piped())
            .spawn();
        let mut child = started.map_err(|fault| format!("{program} cannot be started: {fault}"))?;
        let questions = BufWriter::new(child.stdin.take().expect("asked for above"));
        let answers = child.stdout.take().expect("asked for above");
        Ok(Asking {
            child,
            questions,
            answers,
            open: Vec::new(),
            waiting: 0,
        })
    }

    pub fn ask(&mut self, question: Asked) {
        let bytes = question.bytes();
        let length = u32::try_from(bytes.len()).expect("no text is that long");
        let sent = self
            .questions
            .write_all(&[question.sort()])
            .and_then(|()| self.questions.write_all(&length.to_le_bytes()))
            .and_then(|()| self.questions.write_all(bytes));
        sent.expect("the program asked takes every question");
        self.waiting += (5 + bytes.len()).max(length_of_answers(&question));
        self.open.push(question);
        if self.waiting > MOST_WAITING {
            self.hold_against_answers();
        }
    }

    /// Holds every open question against all its answers.
    pub fn hold_against_answers(&mut self) {
        let bytes = self.open.iter().map(length_of_answers).sum();
        let taken = self.take(bytes);
        let mut answers = taken.as_slice();
        for question in &self.open {
            for _ in 0..question.surroundings() {
                let (answer, rest) = answers.split_at(question.answer_length());
                question.demand_same(answer);
                answers = rest;
            }
        }
        self.open.clear();
        self.waiting = 0;
    }

    /// The answers to the open questions, which are so many bytes.
    fn take(&mut self, bytes: usize) -> Vec<u8> {
        self.questions
            .write_all(b"n")
            .and_then(|()| self.questions.flush())
            .expect("the program asked takes every question");
        let mut taken = vec![0; bytes];
        self.answers
            .read_exact(&mut taken)
            .expect("the program asked answers every question");
        taken
    }

    /// Ends a run in which nothing differed: with status 1 where it left something out, or
    /// the program ends badly.
    pub fn end(self, mut shortcomings: Vec<String>) -> ! {
        if shortcomings.is_empty() {
            shortcomings.extend(self.done().err());
        }
        finish(&shortcomings)
    }

    /// The program must end well once it is asked nothing more.
    pub fn done(self) -> Result<(), String> {
        let Asking {
            mut child,
            questions,
            answers,
            ..
        } = self;
        drop(questions);
        drop(answers);
        match child.wait() {
            Ok(status) if status.success() => Ok(()),
            Ok(status) => Err(format!("the program asked ended with {status}")),
            Err(fault) => Err(format!("the program asked was lost: {fault}")),
        }
    }
}

fn length_of_answers(question: &impl Question) -> usize {
    question.surroundings() * question.answer_length()
}

/// A number of four bytes, the least first, from a place.
pub fn four(bytes: &[u8], at: usize) -> u32 {
    u32::from_le_bytes(bytes[at..at + 4].try_into().expect("four bytes"))
}

/// A number of eight bytes.
pub fn eight(bytes: &[u8], at: usize) -> i64 {
    i64::from_le_bytes(bytes[at..at + 8].try_into().expect("eight bytes"))
}
