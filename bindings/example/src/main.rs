//! One host of a plan as a process, over UDP on the loopback.
//!
//! `example PLAN OWN` prints `port P`. It is told `ports P0 P1 ..` of all hosts and `zero TIME`, the
//! Unix time in milliseconds at which all clocks read 0. Then it serves orders, one a line, as
//! `publish 7 25` or `halt 7`, and prints each delivery, until standard input ends.

mod asked;
mod clock;
mod lines;
mod plan_file;
mod serve;

use asked::Asked;
use clock::Clock;
use currentloom::Host;
use lines::Lines;
use serve::Server;
use std::process::ExitCode;

fn serve(arguments: &[String]) -> Result<(), String> {
    let [path, own] = arguments else {
        return Err("usage: example PLAN OWN".to_string());
    };
    let text = std::fs::read_to_string(path).map_err(|error| format!("{path}: {error}"))?;
    let service = plan_file::read(&text)?;
    let own = own.parse().map_err(|_| "a host's number is wanted")?;
    // A fresh host, before its clock reads 0.
    let host =
        Host::make(lines::RULES, &service.plan, own).map_err(|refusal| refusal.to_string())?;
    let socket = lines::bind().map_err(|error| error.to_string())?;
    let port = socket
        .local_addr()
        .map_err(|error| error.to_string())?
        .port();
    println!("port {port}");
    let asked = asked::listen();
    let (Ok(Asked::Ports(ports)), Ok(Asked::Zero(zero))) = (asked.recv(), asked.recv()) else {
        return Err("first the ports are wanted, then the time of reading 0".to_string());
    };
    let clock = Clock::from_unix(zero, service.tick).ok_or("reading 0 is past")?;
    let lines = Lines::new(socket, &service.plan, own, &ports);
    let plan = service.plan;
    let mut server = Server {
        host,
        plan,
        clock,
        lines,
        asked,
        arrived: Vec::new(),
        dark_after: None,
    };
    server.run().map_err(|refusal| refusal.to_string())
}

fn main() -> ExitCode {
    let arguments: Vec<String> = std::env::args().skip(1).collect();
    match serve(&arguments) {
        Ok(()) => ExitCode::SUCCESS,
        Err(why) => {
            eprintln!("{why}");
            ExitCode::FAILURE
        }
    }
}
