//! The calls through the safe side, at their edges.

use tholungdek::{
    pack, shift_by_immediate, shift_by_register, unpack, Answer, Bank, Finished, Machine, Record,
    Shift, Shifted, Unpacked, MEMORY_LIMIT, STATE_SIZE,
};

const MOV_R0_5: u32 = 0xE3A0_0005;
const SUBS_R1_R0_7: u32 = 0xE250_1007;
const SBC_R2_R0_1: u32 = 0xE2C0_2001;
const SWI_7: u32 = 0xEF00_0007;
const B_SELF: u32 = 0xEAFF_FFFE;
const STMIA_R1_R2_R3: u32 = 0xE881_000C;
const UNDEFINED: u32 = 0xE7F0_00F0;

fn image(words: &[u32]) -> Vec<u8> {
    words.iter().flat_map(|word| word.to_le_bytes()).collect()
}

/// A machine with a tag and no two registers alike, so that a change shows.
fn marked() -> Machine {
    let mut bytes = *Machine::new().as_bytes();
    for (i, byte) in bytes.iter_mut().enumerate().take(60) {
        *byte = i as u8;
    }
    let mut machine = Machine::from(bytes);
    machine.set_pc(0);
    machine.set_tag(Some(0x1234));
    machine
}

#[test]
fn a_fresh_machine_is_in_system_mode() {
    let machine = Machine::new();
    assert_eq!(machine.registers(), [0; 16]);
    for record in Record::ALL {
        assert_eq!((machine.status(record), machine.ge(record)), (0x1F, 0));
    }
    assert_eq!(machine.tag(), None);
    assert_eq!(machine, Machine::default());
}

#[test]
fn every_part_of_a_machine_has_bytes_of_its_own() {
    let mut machine = Machine::new();
    let mut next = 1;
    let mut mark = || {
        next += 1;
        next
    };
    machine.set_registers(std::array::from_fn(|_| mark()));
    for record in Record::ALL {
        machine.set_status(record, mark());
    }
    for record in Record::ALL {
        machine.set_ge(record, mark());
    }
    for bank in [
        Bank::Fiq,
        Bank::Irq,
        Bank::Supervisor,
        Bank::Abort,
        Bank::Undefined,
        Bank::User,
    ] {
        machine.set_banked(bank, [mark(), mark()]);
    }
    machine.set_fiq(std::array::from_fn(|_| mark()));
    machine.set_other(std::array::from_fn(|_| mark()));
    let words: Vec<u32> = machine
        .as_bytes()
        .chunks(4)
        .map(|four| u32::from_le_bytes(four.try_into().unwrap()))
        .collect();
    assert_eq!(words[..52], (2..54).collect::<Vec<u32>>());
    machine.set_tag(Some(77));
    assert_eq!(machine.as_bytes()[208..], [1, 0, 0, 0, 77, 0, 0, 0]);
    assert_eq!(machine.banked(Bank::User), [42, 43]);
    assert_eq!((machine.fiq()[4], machine.other()[0]), (48, 49));
    machine.set_tag(None);
    assert_eq!(machine.as_bytes()[208..], [0; 8]);
}

#[test]
fn a_machine_is_made_of_216_bytes_and_no_other_number() {
    let machine = marked();
    assert_eq!(Machine::from_bytes(machine.as_bytes()), Some(machine));
    for length in [0, STATE_SIZE - 1, STATE_SIZE + 1] {
        assert_eq!(Machine::from_bytes(&vec![0; length]), None);
    }
}

#[test]
fn there_is_no_register_16() {
    let mut machine = marked();
    let before = machine.clone();
    assert_eq!(machine.register(16), None);
    assert!(!machine.set_register(16, 1) && !machine.set_register(usize::MAX, 1));
    assert_eq!(machine, before);
    assert!(machine.set_register(15, 8));
    assert_eq!((machine.register(15), machine.pc()), (Some(8), 8));
}

#[test]
fn a_step_is_done() {
    let (mut machine, mut memory) = (Machine::new(), image(&[MOV_R0_5]));
    assert_eq!(machine.step(&mut memory), Answer::Done);
    assert_eq!((machine.register(0), machine.pc()), (Some(5), 4));
}

#[test]
fn a_supervisor_call_moves_r15_past_itself() {
    let (mut machine, mut memory) = (Machine::new(), image(&[SWI_7]));
    let answer = machine.step(&mut memory);
    assert_eq!(answer, Answer::Supervisor { number: 7 });
    assert!(answer.changes());
    assert_eq!(machine.pc(), 4);
}

#[test]
fn a_step_with_an_opcode_fetches_nothing() {
    let mut machine = Machine::new();
    machine.set_pc(0x8001_0000);
    assert_eq!(
        machine.step_opcode(&mut [], SWI_7),
        Answer::Supervisor { number: 7 }
    );
    assert_eq!(machine.pc(), 0x8001_0004);
}

#[test]
fn empty_memory_has_no_instruction() {
    let mut machine = marked();
    let before = machine.clone();
    assert_eq!(machine.step(&mut []), Answer::Fetch { address: 0 });
    let finished = machine.run(&mut [], 10);
    assert_eq!(
        finished,
        Finished {
            answer: Answer::Fetch { address: 0 },
            count: 0
        }
    );
    assert_eq!(machine, before);
}

#[test]
fn memory_ends_at_65536_bytes() {
    let mut machine = Machine::new();
    let mut memory = image(&[MOV_R0_5]);
    memory.resize(MEMORY_LIMIT, 0);
    assert_eq!(machine.step(&mut memory), Answer::Done);
    machine.set_pc(MEMORY_LIMIT as u32 - 4);
    memory.truncate(MEMORY_LIMIT - 4);
    memory.extend(SWI_7.to_le_bytes());
    assert_eq!(machine.step(&mut memory), Answer::Supervisor { number: 7 });

    memory.push(0);
    machine.set_pc(0);
    let before = machine.clone();
    assert_eq!(machine.step(&mut memory), Answer::MemoryTooLong);
    assert_eq!(
        machine.step_opcode(&mut memory, MOV_R0_5),
        Answer::MemoryTooLong
    );
    let finished = machine.run(&mut memory, 0);
    assert_eq!(
        finished,
        Finished {
            answer: Answer::MemoryTooLong,
            count: 0
        }
    );
    assert_eq!(machine, before);
}

#[test]
fn a_ge_of_16_is_a_bad_state_in_every_record() {
    for record in Record::ALL {
        let (mut machine, mut memory) = (Machine::new(), image(&[MOV_R0_5]));
        machine.set_ge(record, 16);
        let before = machine.clone();
        assert_eq!(machine.step(&mut memory), Answer::BadState);
        assert_eq!(machine.run(&mut memory, 1).answer, Answer::BadState);
        assert_eq!(machine, before);
        machine.set_ge(record, 15);
        assert_eq!(machine.step(&mut memory), Answer::Done);
    }
}

#[test]
fn a_refused_step_leaves_machine_and_memory() {
    // The first of the two words stored would still fit.
    let (mut machine, mut memory) = (marked(), image(&[STMIA_R1_R2_R3, 0]));
    machine.set_register(1, 4);
    let before = (machine.clone(), memory.clone());
    assert_eq!(machine.step(&mut memory), Answer::Bus { address: 8 });
    assert_eq!((machine, memory), before);
}

#[test]
fn the_other_refusals_have_their_values() {
    let mut machine = Machine::new();
    machine.set_pc(0x10);
    let memory = &mut [0; 0x20];
    let undefined = Answer::Undefined {
        address: 0x10,
        opcode: UNDEFINED,
    };
    assert_eq!(machine.step_opcode(memory, UNDEFINED), undefined);
    let breakpoint = Answer::Breakpoint {
        address: 0x10,
        number: 0x21,
    };
    assert_eq!(machine.step_opcode(memory, 0xE120_0271), breakpoint);
    let coprocessor = Answer::Coprocessor {
        opcode: 0xEE07_0F90,
    };
    assert_eq!(machine.step_opcode(memory, 0xEE07_0F90), coprocessor);
    machine.set_pc(0x12);
    assert_eq!(machine.step(memory), Answer::Fetch { address: 0x12 });
    machine.set_status(Record::Current, 0x3F);
    assert_eq!(machine.step(memory), Answer::Thumb);
    assert!(!undefined.changes() && !coprocessor.changes());
}

/// The table of answers in docs/HANDBOOK.md, each image run for at most ten steps in 65,536 bytes.
#[test]
fn the_handbook_s_examples_answer_as_it_says() {
    let examples: [(&[u32], Answer, u32); 8] = [
        (&[SWI_7], Answer::Supervisor { number: 7 }, 1),
        (
            &[UNDEFINED],
            Answer::Undefined {
                address: 0,
                opcode: UNDEFINED,
            },
            0,
        ),
        (
            &[0xE120_0070],
            Answer::Breakpoint {
                address: 0,
                number: 0,
            },
            0,
        ),
        (
            &[0xEE07_0F90],
            Answer::Coprocessor {
                opcode: 0xEE07_0F90,
            },
            0,
        ),
        (&[0xE3A0_0001, 0xE12F_FF10], Answer::Thumb, 2),
        (&[0xE3A0_F802], Answer::Fetch { address: 0x20000 }, 1),
        (
            &[0xE3A0_1802, 0xE591_0000],
            Answer::Bus { address: 0x20000 },
            1,
        ),
        (&[B_SELF], Answer::Timeout, 10),
    ];
    for (words, answer, count) in examples {
        let mut memory = image(words);
        memory.resize(MEMORY_LIMIT, 0);
        let finished = Machine::new().run(&mut memory, 10);
        assert_eq!(finished, Finished { answer, count }, "{words:08X?}");
    }
}

#[test]
fn a_run_counts_the_steps_that_changed_something() {
    let words = [MOV_R0_5, SUBS_R1_R0_7, SBC_R2_R0_1, SWI_7];
    let (mut machine, mut memory) = (Machine::new(), image(&words));
    let finished = machine.run(&mut memory, 10);
    assert_eq!(
        finished,
        Finished {
            answer: Answer::Supervisor { number: 7 },
            count: 4
        }
    );
    assert_eq!(machine.registers()[..3], [5, 0xFFFF_FFFE, 3]);
    assert_eq!(machine.status(Record::Current), 0x8000_001F);

    // The next word is outside: the run refuses its first step and counts none.
    let before = machine.clone();
    let finished = machine.run(&mut memory, 10);
    assert_eq!(
        finished,
        Finished {
            answer: Answer::Fetch { address: 16 },
            count: 0
        }
    );
    assert_eq!(machine, before);
}

#[test]
fn a_run_stops_at_its_budget() {
    let (mut machine, mut memory) = (Machine::new(), image(&[B_SELF]));
    for budget in [0, 1, 1000] {
        let finished = machine.run(&mut memory, budget);
        assert_eq!(
            finished,
            Finished {
                answer: Answer::Timeout,
                count: budget
            }
        );
    }
}

#[test]
fn status_words_are_packed_and_unpacked() {
    assert_eq!(
        unpack(0xFFFF_FFFF),
        Unpacked {
            word: 0xF80F_03FF,
            ge: 15
        }
    );
    assert_eq!(unpack(0), Unpacked { word: 0x10, ge: 0 });
    assert_eq!(pack(0x1F, 9), Some(0x0009_001F));
    assert_eq!((pack(0x1F, 16), pack(0x1F, u32::MAX)), (None, None));
}

#[test]
fn shifts_give_value_and_carry() {
    let of = |value, carry| Shifted { value, carry };
    assert_eq!(
        shift_by_immediate(Shift::Lsr, 0x8000_0000, 0, false),
        of(0, true)
    );
    assert_eq!(
        shift_by_immediate(Shift::Asr, 0x8000_0000, 0, false),
        of(0xFFFF_FFFF, true)
    );
    assert_eq!(
        shift_by_immediate(Shift::Ror, 1, 0, true),
        of(0x8000_0000, true)
    );
    assert_eq!(shift_by_register(Shift::Lsl, 1, 32, false), of(0, true));
    assert_eq!(shift_by_register(Shift::Lsl, 1, 33, true), of(0, false));
    assert_eq!(shift_by_register(Shift::Ror, 6, 0x100, true), of(6, true));
}

#[test]
fn answers_are_told_in_words() {
    let texts = [
        (Answer::Done, 0, "done"),
        (Answer::Supervisor { number: 7 }, 1, "Supervisor call 7"),
        (
            Answer::Undefined {
                address: 16,
                opcode: UNDEFINED,
            },
            2,
            "undefined instruction E7F000F0 at 00000010",
        ),
        (
            Answer::Breakpoint {
                address: 16,
                number: 33,
            },
            3,
            "breakpoint 33 at 00000010",
        ),
        (
            Answer::Coprocessor {
                opcode: 0xEE00_0000,
            },
            4,
            "coprocessor instruction EE000000",
        ),
        (Answer::Thumb, 5, "Thumb state"),
        (
            Answer::Fetch { address: 8 },
            6,
            "no instruction to fetch at 00000008",
        ),
        (
            Answer::Bus { address: 8 },
            7,
            "access outside memory at 00000008",
        ),
        (Answer::BadState, 8, "bad state"),
        (Answer::MemoryTooLong, 9, "memory too long"),
        (Answer::Timeout, 10, "budget used up"),
        (
            Answer::TransferForm { opcode: 9 },
            11,
            "transfer form 00000009",
        ),
    ];
    for (answer, number, text) in texts {
        assert_eq!(
            (answer.number(), answer.to_string().as_str()),
            (number, text)
        );
    }
}
