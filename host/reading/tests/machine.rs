//! Cases worked out by hand from request 9.

use reading::boundary;
use reading::bytes::SIZE;
use reading::log::{Fault, Item, check, items, machine};
use reading::play::text;
use reading::{Chip, MEMORY, Machine, player};

static MEMORY_0: [u8; MEMORY] = [0; MEMORY];

fn fault(log: &str) -> (u8, usize) {
    check(log.as_bytes()).map_or_else(|Fault { number, place }| (number, place), |_| (0, 0))
}

#[test]
fn power_on() {
    let (ntsc, pal) = (Chip::power_on(Machine::Ntsc), Chip::power_on(Machine::Pal));
    assert_eq!((ntsc.noise.timer, ntsc.dmc.timer), (4, 428));
    assert_eq!((pal.noise.timer, pal.dmc.timer), (4, 398));
    // All else is the same, but the machine's byte.
    let different: Vec<usize> = (0..SIZE).filter(|&i| ntsc.encode()[i] != pal.encode()[i]).collect();
    assert_eq!(different, [70, 90]);
    for machine in 0..=255 {
        let mut state = [0xa5; SIZE];
        let done = machine <= 1;
        assert_eq!(boundary::power_on(&mut state, machine), if done { 0 } else { 2 });
        assert_eq!(state[90], if done { machine } else { 0xa5 });
        assert_eq!(boundary::power_on(&mut state[1..], machine), 2);
    }
}

#[test]
fn ranges() {
    for (machine, noise, dmc, four, five) in
        [(Machine::Ntsc, 4068, 428, 29829, 37281), (Machine::Pal, 3778, 398, 33253, 41565)]
    {
        let with = |change: fn(&mut Chip, u16), value: u16| {
            let mut chip = Chip::power_on(machine);
            change(&mut chip, value);
            assert_eq!(Chip::decode(&chip.encode()).is_some(), chip.in_range());
            chip.in_range()
        };
        let changes: [(fn(&mut Chip, u16), u16); 4] = [
            (|chip, value| chip.noise.timer = value, noise),
            (|chip, value| chip.dmc.timer = value, dmc),
            (|chip, value| chip.frame.clock = value, four),
            (|chip, value| (chip.frame.mode, chip.frame.clock) = (true, value), five),
        ];
        for (change, most) in changes {
            assert!(with(change, most) && !with(change, most + 1), "{machine:?} {most}");
        }
    }
    let mut state = Chip::POWER_ON.encode();
    for machine in 2..=255 {
        state[90] = machine;
        assert_eq!(boundary::level(&state), 2);
    }
    // 428 is a timer of NTSC and none of PAL.
    state[90] = 1;
    assert_eq!(boundary::level(&state), 2);
}

/// The clocks of the first two outputs that change what is looked at.
fn period(mut chip: Chip, look: fn(&Chip) -> u16) -> u32 {
    let mut changes = Vec::new();
    for clock in 1..20_000 {
        let before = look(&chip);
        chip.clock(&MEMORY_0);
        if look(&chip) != before {
            changes.push(clock);
        }
        if let [first, second] = changes[..] {
            return second - first;
        }
    }
    panic!("nothing moves");
}

#[test]
fn periods() {
    let noise = [4, 8, 14, 30, 60, 88, 118, 148, 188, 236, 354, 472, 708, 944, 1890, 3778];
    let dmc = [398, 354, 316, 298, 276, 236, 210, 198, 176, 148, 132, 118, 98, 78, 66, 50];
    for index in 0..16 {
        let mut chip = Chip::power_on(Machine::Pal);
        (chip.noise.index, chip.dmc.index) = (index, index);
        let index = usize::from(index);
        assert_eq!(period(chip, |chip| chip.noise.register), noise[index]);
        assert_eq!(period(chip, |chip| chip.dmc.bits), dmc[index]);
    }
}

#[test]
fn frame_steps() {
    for (mode, again, times) in [
        (0x00, 33254, &[8313, 16627, 24939, 33253][..]),
        // The fifth of the five moves nothing; step 1 came with the write.
        (0x80, 41566, &[8313, 16627, 24939, 41565][..]),
    ] {
        let mut chip = Chip::power_on(Machine::Pal);
        chip.write(0x4017, mode);
        (chip.triangle.linear, chip.noise.length.enabled, chip.noise.length.count) = (127, true, 200);
        let (mut steps, mut lengths, mut flags) = (Vec::new(), Vec::new(), Vec::new());
        for clock in 1..=2 * again {
            let before = chip;
            chip.clock(&MEMORY_0);
            steps.extend((chip.triangle.linear != before.triangle.linear).then_some(clock));
            lengths.extend((chip.noise.length != before.noise.length).then_some(clock));
            flags.extend((chip.read_status() & 0x40 > 0).then_some(clock));
        }
        let twice = |times: &[u32]| [times, &times.iter().map(|time| time + again).collect::<Vec<_>>()[..]].concat();
        assert_eq!(steps, twice(times));
        assert_eq!(lengths, twice(&[times[1], times[3]]));
        assert_eq!(flags, if mode == 0 { twice(&times[3..]) } else { Vec::new() });
        assert_eq!(chip.frame.clock, 0);
    }
}

#[test]
fn no_access_changes_the_machine() {
    for machine in Machine::ALL {
        let mut chip = Chip::power_on(machine);
        for register in 0x4000..=0x4017 {
            for value in 0..=255 {
                chip.write(register, value);
                chip.read_status();
                assert_eq!(chip.machine, machine);
                assert!(chip.in_range());
            }
        }
    }
}

#[test]
fn the_line() {
    for (log, number, place) in [
        ("log=1\nmachine=pal\nstop=0\n", 0, 0),
        ("log=1\nmachine=pal\nloop=2\nwait=5\ndone=loop\nstop=10\n", 0, 0),
        ("log=1\nm", 17, 7),
        ("log=1\nmachine", 17, 13),
        ("log=1\nmachine=", 17, 14),
        ("log=1\nmachine=pal", 17, 17),
        ("log=1\nmachine=pal\n", 18, 18),
        ("log=1\nmx\n", 14, 7),
        ("log=1\nmx", 14, 7),
        ("log=1\nmachine\n", 14, 13),
        ("log=1\nmachines=pal\n", 14, 13),
        ("log=1\nMachine=pal\n", 14, 6),
        ("log=1\nmachine=ntsc\nstop=0\n", 15, 14),
        ("log=1\nmachine=\n", 15, 14),
        ("log=1\nmachine=PAL\n", 15, 14),
        ("log=1\nmachine=pa\n", 15, 16),
        ("log=1\nmachine=pals\n", 15, 17),
        ("log=1\nmachine=pal\r\n", 15, 17),
        ("machine=pal\n", 14, 0),
        ("machine=pal\nlog=1\nstop=0\n", 14, 0),
        ("log=1\nmachine=pal\nmachine=pal\nstop=0\n", 14, 18),
        ("log=1\nwait=5\nmachine=pal\nstop=5\n", 14, 13),
        ("log=1\nwait=5\nm", 14, 13),
        ("log=1\nloop=2\nmachine=pal\ndone=loop\nstop=0\n", 14, 13),
        ("log=1\nstop=0\nmachine=pal\n", 19, 13),
        ("log=1\nmachine=pal\nwrite=4014:00\n", 4, 18),
        ("log=1\nmachine=pal\nwait=5\nstop=4\n", 10, 25),
        ("log=1\nmachine=pal\nlog=1\n", 14, 20),
    ] {
        assert_eq!(fault(log), (number, place), "{log}");
    }
}

#[test]
fn the_line_is_no_turn_and_no_item() {
    let log = b"log=1\nmachine=pal\nwait=5\nstop=5\n";
    let all = check(log).unwrap();
    assert_eq!((all.clocks, all.turns, all.items), (5, 1, 1));
    assert_eq!(items(log).unwrap(), [Item::Wait(5)]);
    assert_eq!((machine(log), machine(b"log=1\nstop=0\n")), (Ok(Machine::Pal), Ok(Machine::Ntsc)));
    assert_eq!(player::check(log), (1 << 31 | 5) << 32);
    assert_eq!(player::check(b"log=1\nwait=5\nstop=5\n"), 5 << 32);
    assert_eq!(player::check(b"log=1\nmachine=pal\nwait=5\nstop=4\n"), 10 | 25 << 8);
}

#[test]
fn a_log_is_played_on_its_machine() {
    let lines = "wait=29829\nread=4015\nwait=3423\nread=4015\nwait=1\nread=4015\nstop=33253\n";
    let head = "play=1\nlevel=0:8074\n";
    assert_eq!(
        text(format!("log=1\n{lines}").as_bytes(), &MEMORY_0),
        format!("{head}read=29829:40\nread=33252:00\nread=33253:00\nstop=33253\n")
    );
    let log = format!("log=1\nmachine=pal\n{lines}");
    let whole = format!("{head}read=29829:00\nread=33252:00\nread=33253:40\nstop=33253\n");
    assert_eq!(text(log.as_bytes(), &MEMORY_0), whole);
    let mut bytes = [0; player::SIZE];
    let mut piece = [0; 200];
    assert_eq!(player::begin(&mut bytes, log.as_bytes(), &MEMORY_0), 0);
    let answer = player::play_on(&mut bytes, log.as_bytes(), &MEMORY_0, &mut piece);
    assert_eq!((answer >> 8 & 1, &piece[..(answer >> 32) as usize]), (1, whole.as_bytes()));
}
