//! The reader of value change dumps, on dumps by hand.

use compare::vcd::{Change, carried, read};

const HEAD: &str = "\
$date today $end
$comment none of ours $end
$timescale 10 ns $end
$scope module top $end
$var wire 4 ! four $end
$scope task inner $end $var reg 1 \" bit $end $var wire 4 ! again [3:0] $end
$upscope $end $upscope $end
$enddefinitions $end
";

fn changes(body: &str) -> Vec<(u64, usize, String)> {
    let dump = read(&format!("{HEAD}{body}")).unwrap_or_else(|what| panic!("{what}"));
    dump.changes.into_iter().map(|Change { time, variable, bits }| (time, variable, bits)).collect()
}

fn refused(text: &str) -> String {
    read(text).expect_err("it is no dump")
}

#[test]
fn the_head() {
    let dump = read(HEAD).unwrap();
    assert_eq!(dump.timescale, "10ns");
    let shown: Vec<String> = dump
        .variables
        .iter()
        .map(|v| format!("{} / {} {} {}", v.scopes.join(" / "), v.kind, v.width, v.name))
        .collect();
    let inner = "module top / task inner";
    let expected = [
        "module top / wire 4 four".to_string(),
        format!("{inner} / reg 1 bit"),
        format!("{inner} / wire 4 again[3:0]"),
    ];
    assert_eq!(shown, expected);
}

#[test]
fn values_and_their_extension() {
    let both = |time, bits: &str| [(time, 0, bits.to_string()), (time, 2, bits.to_string())];
    assert_eq!(changes("#0 b1 !"), both(0, "0001"));
    assert_eq!(changes("#0 b01 !"), both(0, "0001"));
    assert_eq!(changes("#0 B1X !\n#3 bz0 !\n"), [both(0, "001x"), both(3, "zzz0")].concat());
    assert_eq!(changes("#0 bx1 !"), both(0, "xxx1"));
    assert_eq!(
        changes("#0\n$dumpvars 1\" $end #0 x\" #1 $comment 0! $end Z\""),
        [(0, 1, "1".to_string()), (0, 1, "x".into()), (1, 1, "z".into())]
    );
    // Any characters that are printed are a code.
    let dump = read("$var wire 2 $ a $end $var wire 1 #b b $end $enddefinitions $end #4 b01 $ 1#b").unwrap();
    assert_eq!(dump.changes.iter().map(Change::number).collect::<Vec<_>>(), [Some(1), Some(1)]);
    let dump = read(&format!("{HEAD}#0\n$dumpvars 1\" b0 ! $end #7 0\" #7 1\" #9")).unwrap();
    assert_eq!((dump.dumped, dump.times), (3, vec![0, 7, 9]));
    assert_eq!(
        dump.changes.iter().map(Change::number).collect::<Vec<_>>(),
        [Some(1), Some(0), Some(0), Some(0), Some(1)]
    );
}

#[test]
fn what_is_no_dump() {
    let behind = |body: &str| refused(&format!("{HEAD}{body}"));
    assert_eq!(behind("#5 1\"\n#4"), "line 10: time goes back from 5 to 4");
    assert_eq!(behind("#5 1?"), "line 9: a value of ?, which isn't declared");
    assert_eq!(behind("#5 b10101 !"), "line 9: 5 bits for !, which has 4");
    assert_eq!(behind("#5 b12 !"), "line 9: 12 are no bits");
    assert_eq!(behind("#5 b !"), "line 9: a value without digits");
    assert_eq!(behind("#5 b1"), "line 9: bits without a code");
    assert_eq!(behind("#5 1"), "line 9: the bit 1 without a code");
    assert_eq!(behind("#5 10\""), "line 9: a value of 0\", which isn't declared");
    assert_eq!(behind("1\""), "line 9: a value before the first time");
    assert_eq!(behind("# 5"), "line 9: the time ");
    assert_eq!(behind("#-5"), "line 9: the time -5");
    assert_eq!(behind("#5 $dumpvars 1\" #6 $end"), "line 9: #6 where it can't stand");
    assert_eq!(behind("#5 $dumpvars 1\""), "line 9: $dumpvars without $end");
    assert_eq!(behind("#5 $end"), "line 9: $end where it can't stand");
    assert_eq!(behind("#5 refused"), "line 9: refused is neither a time nor a value");
    assert_eq!(refused("refused=1:0\n"), "line 1: a section without $end");
    assert_eq!(refused("$scope module a $end $enddefinitions $end"), "line 1: a scope is open");
    assert_eq!(refused("$upscope $end $enddefinitions $end"), "line 1: $upscope with no scope open");
    assert_eq!(refused("$scope module a $var wire 1 ! a $end"), "line 1: $var in a section");
    assert_eq!(refused("$scope house a $end"), "line 1: $scope house a is no declaration");
    assert_eq!(refused("$timescale 2 ns $end"), "line 1: a time scale of 2ns");
    assert_eq!(refused("$var wire 0 ! a $end"), "line 1: a variable of size 0");
    assert_eq!(refused("$var wite 1 ! a $end"), "line 1: a variable of type wite");
    assert_eq!(refused("$var wire 1 ! a b $end"), "line 1: words behind the variable a");
    assert_eq!(
        refused("$var wire 1 ! a $end $var wire 2 ! b $end"),
        "line 1: the code ! is declared twice, with two sizes"
    );
    assert_eq!(refused("$var wire 1 ! a $end\n"), "line 1: no $enddefinitions");
}

#[test]
fn lanes_that_another_dump_has() {
    let dump = |head: &str, body: &str| read(&format!("{head}{body}")).unwrap_or_else(|what| panic!("{what}"));
    let ours = dump(HEAD, "#50 $dumpvars b1 ! 0\" $end #52 1\" #52 0\" #53 b10 ! #54 b10 ! #55 1\" #57 b0 !");
    assert_eq!(ours.lane(0), [(0, "0001"), (3, "0010")]);
    assert_eq!(ours.lane(1), [(0, "0"), (5, "1")]);
    let head = "$timescale 1 ns $end $var wire 1 a top.bit $end $var wire 1 b other $end $enddefinitions $end ";
    assert_eq!(carried(&ours, &dump(head, "#0 0a #0 1b #5 1a #7")), Ok(1));
    assert!(carried(&ours, &dump(head, "#0 0a #0 1b #4 1a #7")).is_err());
    assert!(carried(&ours, &dump(head, "#0 0a #0 1b #7")).is_err());
}
