//! The token beside the peer, both by their C entries, in one run; a hash beside mbedTLS's too. Every mode first makes sure that all give and write the
//! same in every case.
//!
//! - `bench`: the time of each case with both, their ratio, and the time of a memcpy of what goes through; of a hash mbedTLS's time.
//! - `bench stack`: how deep each case goes.
//! - `bench calls token|peer|mbedtls`: each case twice, for an instruction count of what is called inside `counted`; with mbedTLS the hashes.
//! - `bench version`: mbedTLS's.

mod calls;
mod cases;
mod data;
mod entries;
mod placed;
mod stack;
mod times;

use calls::{repeat, repeat_mbedtls, Desk, Outputs};
use cases::Case;
use entries::{mbedtls_version, peer, token, Entries};

/// A number that there may be none of.
fn told(number: Option<f64>, places: usize) -> String {
    number.map_or(String::new(), |number| format!("{:.*}", places, number))
}

fn print_times(desk: &Desk, cases: &mut [Case]) {
    println!("case\ttoken ns\tpeer ns\ttoken / peer\tfloor ns\tmbedtls ns\ttoken / mbedtls");
    let measured = times::measure(desk, cases);
    for (case, times) in cases.iter().zip(measured) {
        println!(
            "{}\t{:.1}\t{:.1}\t{:.3}\t{}\t{}\t{}",
            case.name,
            times.token,
            times.peer,
            times.ratio,
            told(times.floor, 1),
            told(times.mbedtls, 1),
            told(times.mbedtls_ratio, 3)
        );
    }
}

fn print_stack(desk: &Desk, cases: &[Case]) {
    println!("case\ttoken bytes\tpeer bytes\tmbedtls bytes");
    for case in cases {
        let depth = |entries: Entries| {
            let mut out = Outputs::new();
            stack::depth_of(|| {
                repeat(&entries, desk, &case.call, &mut out, 1);
            })
        };
        let (token, peer) = (depth(token()), depth(peer()));
        let mbedtls = if case.is_hash() {
            let mut out = Outputs::new();
            let depth = stack::depth_of(|| {
                repeat_mbedtls(&case.call, &mut out, 1);
            });
            depth.to_string()
        } else {
            String::new()
        };
        println!("{}\t{}\t{}\t{}", case.name, token, peer, mbedtls);
    }
}

/// One call, whose end a profiler can be told to wait for.
#[inline(never)]
#[no_mangle]
fn counted(call: &mut dyn FnMut() -> u32) -> u32 {
    call()
}

fn call_twice(case: &Case, mut call: impl FnMut(&mut Outputs) -> u32) {
    let mut out = Outputs::new();
    for _ in 0..2 {
        let gave = counted(&mut || call(&mut out));
        assert_eq!(gave, case.refusal, "{}", case.name);
    }
}

fn call_all(entries: &Entries, desk: &Desk, cases: &[Case]) {
    for case in cases {
        call_twice(case, |out| repeat(entries, desk, &case.call, out, 1));
    }
}

fn call_mbedtls(cases: &[Case]) {
    for case in cases.iter().filter(|case| case.is_hash()) {
        call_twice(case, |out| {
            repeat_mbedtls(&case.call, out, 1).expect("a hash")
        });
    }
}

fn main() {
    let desk = Desk::new();
    let mut cases = cases::all(&desk);
    for case in &cases {
        case.agreed(&desk);
    }
    let arguments: Vec<String> = std::env::args().skip(1).collect();
    let arguments: Vec<&str> = arguments.iter().map(String::as_str).collect();
    match arguments[..] {
        [] => print_times(&desk, &mut cases),
        ["stack"] => print_stack(&desk, &cases),
        ["calls", "token"] => call_all(&token(), &desk, &cases),
        ["calls", "peer"] => call_all(&peer(), &desk, &cases),
        ["calls", "mbedtls"] => call_mbedtls(&cases),
        ["version"] => println!("{}", mbedtls_version()),
        _ => {
            eprintln!("usage: bench [stack | calls token|peer|mbedtls | version]");
            std::process::exit(2);
        }
    }
}
