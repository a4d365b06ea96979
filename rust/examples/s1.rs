//! Session S1 of the manual by single calls: prints its four lines. `BRB_ARCHIVE=… cargo run --example s1`.

use brb::{Operation, Outcome, Recorder};

fn session() -> [Operation; 12] {
    [
        Operation::reset(8, false),
        Operation::platform(0, brb::P_NS | brb::p_sbrbe_is(3)),
        Operation::write(0, brb::REGISTER_BRBCR_EL1, brb::CONTROL_E1BRE | brb::CONTROL_CC),
        Operation::write(0, brb::REGISTER_BRBCR_EL2, brb::CONTROL_CC),
        Operation::write(0, brb::REGISTER_BRBFCR_EL1, brb::FILTER_ENI),
        Operation::exception_return(0, brb::LEVEL_EL1, false, 128, 4096),
        Operation::branch(300, brb::TYPE_DIRECT, false, 4100, 4112),
        Operation::branch(300, brb::TYPE_CONDDIR, true, 4112, 4096),
        Operation::read(0, brb::register_brbinf(0)),
        Operation::read(0, brb::register_brbinf(1)),
        Operation::read(0, brb::register_brbsrc(0)),
        Operation::read(0, brb::REGISTER_BRBCR_EL2),
    ]
}

fn main() {
    let mut recorder = Recorder::new();
    for operation in session() {
        match recorder.step(operation).outcome() {
            Outcome::Done(value) if operation.code == brb::CODE_READ => println!("{value:016x}"),
            Outcome::Done(_) => {}
            Outcome::Undefined => println!("undefined"),
            Outcome::Trap2 => println!("trap2"),
            Outcome::Trap3 => println!("trap3"),
            Outcome::Refused(number) => println!("refused {number}"),
        }
    }
}
