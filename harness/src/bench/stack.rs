//! The stack that a call uses: it runs on memory filled with a pattern, and the deepest byte that changed is found.

use super::inputs::*;
use super::{Memory, Subject, Work, OF_LISTING};
use crate::calls::{Answer, Calls};
use crate::library::Library;
use crate::perform::make;
use model::limits::{MAX_BOOK, MAX_INSTRUCTIONS, MAX_LEVELS};
use model::vectors::Call;
use std::arch::asm;
use std::ffi::c_void;

/// Bytes of the painted stack.
const STACK: usize = 4 << 20;
const PAINT: u8 = 0xA5;

/// The inputs on which a call goes deepest or keeps most, and the calls that take them.
fn subjects() -> [(&'static str, &'static [Call], Subject); 8] {
    let answers = vec![0; MAX_INSTRUCTIONS];
    let no_book = |guide| Subject::of_guide(guide, Vec::new(), Vec::new());
    let full = Subject::of_guide(spelled(), long_book(MAX_BOOK), answers.clone());
    let options = Subject::of_guide(large_guide(), mixed_book(), answers);
    let long_answers = [i32::MIN, 7].repeat(MAX_INSTRUCTIONS / 2);
    let asked = Subject::of_guide(asked_within(), long_book(MAX_BOOK), long_answers);
    let own = Subject::of_listing(own_phrases(), Vec::new(), Vec::new());
    let all = &Call::ALL;
    [
        ("empty guide", all, no_book(Vec::new())),
        ("511 prints", all, no_book(prints(511))),
        ("16 levels around 480 prints", all, no_book(nested(MAX_LEVELS))),
        ("24 prints in front of each of 16 ifs", all, no_book(stepped())),
        ("plate of 2,953 bytes, full book", all, full),
        ("32 own phrases of 64 bytes", &OF_LISTING, own),
        ("192 inputs of 8 options, 320 prints", all, options),
        ("questions in 16 levels, full book", all, asked),
    ]
}

/// Answers at once: what is left is the stack of the measurement itself.
struct Nothing;

impl Calls for Nothing {
    fn translate(&self, _: &[u8], _: &[u8], _: &mut [u8]) -> Answer {
        Answer::default()
    }

    fn write_plate(&self, _: &[u8], _: &[u8], _: &mut [u8]) -> Answer {
        Answer::default()
    }

    fn read_plate(&self, _: &[u8], _: &[u8], _: &mut [u8]) -> Answer {
        Answer::default()
    }

    fn walk(&self, _: &[u8], _: &[u8], _: &[i32], _: &mut [u8]) -> Answer {
        Answer::default()
    }

    fn run(&self, _: &[u8], _: &[u8], _: &[i32], _: &mut [u16], _: &mut [u8]) -> Answer {
        Answer::default()
    }
}

pub fn print_stack() {
    print!("{:<38}", "bytes of stack");
    for call in Call::ALL {
        print!("{:>13}", call.name());
    }
    println!();
    for (name, calls, subject) in subjects() {
        print!("{name:<38}");
        for call in Call::ALL {
            match calls.contains(&call) {
                true => print!("{:>13}", bytes_used(&subject.work(call))),
                false => print!("{:>13}", ""),
            }
        }
        println!();
    }
}

/// The bytes of stack that the library's call uses on this work.
pub fn bytes_used(work: &Work) -> usize {
    depth(&Library, work) - depth(&Nothing, work)
}

/// What is done on the painted stack.
struct Job<'a> {
    calls: &'a dyn Calls,
    work: &'a Work,
    memory: Memory,
    answer: Answer,
}

extern "C" fn do_job(job: *mut c_void) {
    // SAFETY: `depth` hands over a pointer to its own job, which nothing else uses meanwhile.
    let job = unsafe { &mut *job.cast::<Job>() };
    job.answer = make(job.calls, job.work.call, job.work.lent(&mut job.memory));
}

/// How many bytes below the top of a painted stack were changed.
fn depth(calls: &dyn Calls, work: &Work) -> usize {
    let mut stack = vec![PAINT; STACK];
    let answer = Answer { number: 1, ..Answer::default() };
    let mut job = Job { calls, work, memory: Memory::default(), answer };
    let end = stack.as_mut_ptr_range().end as usize;
    // SAFETY: the memory is the stack of this call alone, and its top is a multiple of 16.
    unsafe { on_stack((end - end % 16) as *mut u8, do_job, (&raw mut job).cast()) };
    assert!(job.answer.is_accepted());
    let untouched = stack.iter().position(|&byte| byte != PAINT).unwrap_or(STACK);
    assert!(untouched > 4_096, "the painted stack is too small");
    STACK - untouched
}

/// Calls `function` with `data` on the stack that ends at `top`.
unsafe fn on_stack(top: *mut u8, function: extern "C" fn(*mut c_void), data: *mut c_void) {
    asm!(
        "xchg rsp, r12",
        "call {function}",
        "mov rsp, r12",
        function = in(reg) function,
        inout("r12") top => _,
        in("rdi") data,
        clobber_abi("C"),
    );
}
