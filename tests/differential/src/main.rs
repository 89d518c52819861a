//! The differential harness: the unchanged Rust of the peer link behind the call script.
use std::io::{Read, Write};

mod arguments;
mod compare;
mod coverage;
mod generate;
mod host;
mod link;
mod linkrun;
mod oracle;
mod program;
mod random;
mod refusals;
mod script;
mod starts;
mod traps;
mod view;

/// The Rust itself, copied here by the build.
#[allow(warnings)]
mod peer_session;

// Stand-ins for the three channel types, as far as session.rs names them.
mod game_session {
    pub struct TerminalHandoffCommand {
        pub id: u64,
        pub message: Vec<u8>,
    }
}
mod session_phases {
    pub mod effects {
        #[allow(dead_code)]
        pub enum GameSessionEvent {
            OutboundMessage(Vec<u8>),
            Other,
        }
    }
}
mod transaction_manager {
    #[derive(Default)]
    pub struct ManagerDrain {
        pub events: std::collections::VecDeque<crate::session_phases::effects::GameSessionEvent>,
    }
}

const USAGE: &str = "usage: oracle < SCRIPT
       oracle --linkrun [MESSAGE_NUMBER] < SCRIPT
       traps [PROGRAM | --script]
       gen [--without WORD,WORD..] SEED CALLS
       gen --covering SCRIPTS LONGEST_SESSION
       run [--seed SEED] [--without WORD,WORD..] [--program PROGRAM | --coverage] CALLS";

fn usage() -> ! {
    eprintln!("{USAGE}");
    std::process::exit(2)
}

fn parse(digits: &str) -> u64 {
    digits.parse().unwrap_or_else(|_| usage())
}

fn read_input() -> std::io::Result<Vec<u8>> {
    let mut input = Vec::new();
    std::io::stdin().read_to_end(&mut input)?;
    Ok(input)
}

fn answer_linkrun(message_number: &str) -> std::io::Result<()> {
    let input = read_input()?;
    let start = script::number(message_number.as_bytes());
    match start.and_then(|number| linkrun::answer_all(&input, number)) {
        Some(answers) => std::io::stdout().write_all(&answers),
        None => {
            eprintln!("no session starts at {message_number}");
            std::process::exit(2)
        }
    }
}

fn write_script(seed: &str, calls: &str, without: &[&str]) -> std::io::Result<()> {
    let script = generate::script(parse(seed), parse(calls) as usize, without);
    std::io::stdout().write_all(&script.text())
}

fn read_traps() -> std::io::Result<String> {
    let path = std::env::var_os("TRAPS").map(Into::into);
    let path = path.or_else(|| program::find_upward("shared/design/TRAPS.md"));
    std::fs::read_to_string(path.expect("no shared/design/TRAPS.md upward: set TRAPS"))
}

fn check_traps(program: Option<&str>) -> std::io::Result<()> {
    let passed = traps::run(&read_traps()?, &program::Program::named(program));
    std::process::exit(if passed { 0 } else { 1 })
}

fn compare_programs(options: &[&str]) -> std::io::Result<()> {
    let built = program::find_upward("bin/linkcalls");
    let (mut calls, mut seed, mut covers) = (None, 1, false);
    let mut without = Vec::new();
    let mut program = std::env::var("LINKCALLS").ok().or_else(|| built.map(|path| path.display().to_string()));
    let mut options = options.iter();
    while let Some(option) = options.next() {
        match *option {
            "--coverage" => covers = true,
            "--seed" => seed = parse(options.next().unwrap_or_else(|| usage())),
            "--without" => without = options.next().unwrap_or_else(|| usage()).split(',').collect(),
            "--program" => program = options.next().map(|path| path.to_string()),
            number => calls = Some(parse(number)),
        }
    }
    let calls = calls.unwrap_or_else(|| usage());
    let passed = match program {
        _ if covers => coverage::run(calls, seed),
        Some(path) => compare::run(calls, seed, &without, &program::Program::Other(path.into())),
        None => {
            eprintln!("no target/bin/linkcalls: make it by tools/build linkcalls, or name another by --program or LINKCALLS");
            false
        }
    };
    std::process::exit(if passed { 0 } else { 1 })
}

fn main() -> std::io::Result<()> {
    let words: Vec<String> = std::env::args().skip(1).collect();
    let words: Vec<&str> = words.iter().map(String::as_str).collect();
    match words[..] {
        ["oracle"] => oracle::answer_all(&read_input()?, &mut std::io::stdout().lock()),
        ["oracle", "--linkrun"] => answer_linkrun("1"),
        ["oracle", "--linkrun", message_number] => answer_linkrun(message_number),
        ["traps"] => check_traps(None),
        ["traps", "--script"] => {
            print!("{}", traps::script(&read_traps()?));
            Ok(())
        }
        ["traps", program] => check_traps(Some(program)),
        ["gen", "--covering", scripts, longest_session] => {
            let script = coverage::covering_script(parse(scripts), parse(longest_session) as usize);
            std::io::stdout().write_all(&script)
        }
        ["gen", seed, calls] => write_script(seed, calls, &[]),
        ["gen", "--without", words, seed, calls] => {
            write_script(seed, calls, &words.split(',').collect::<Vec<_>>())
        }
        ["run", ref options @ ..] => compare_programs(options),
        _ => usage(),
    }
}
