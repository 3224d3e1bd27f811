//! A day (document 02, change 12): the lines of its values, by hand, and each ground for 21 and 22 with its line.

use interpreter::day::day;

/// `if { v2 + v1 <= v0 -> v2 += v1; }`: a parcel v1 goes into a bag of size v0 that holds v2; V = 3.
const BAG: &str = "3\n42 1 0 0 0 0\n54 2 0 0 0 0\n56 3 8 0 0 0\n13 4 7 0 0 0\n6 5 6 0 0 0\n2 2 0 0 0 0\n2 1 0 0 0 0\n\
                   2 0 0 0 0 0\n42 9 0 0 0 0\n41 10 0 0 0 0\n22 11 12 0 0 0\n2 2 0 0 0 0\n2 1 0 0 0 0\n";
/// The setting stands on line 16.
const FIRST: usize = 16;

fn printed(rule: &str, behind: &str) -> String {
    day(format!("{rule}{behind}").replace(' ', "\t").as_bytes())
}

fn refused(behind: &str, number: usize, line: usize) {
    assert_eq!(printed(BAG, behind), format!("refused {number} {line}\n"), "{behind:?}");
}

#[test]
fn a_bag_for_four_parcels() {
    let lines = printed(BAG, "\n0 20 21\n1 5\n1 7\n1 3\n1 6\n");
    assert_eq!(lines, "20 3 1 20 3 15\n21 4 0 21 6 21\n".replace(' ', "\t"));
}

#[test]
fn a_line_that_faults_leaves_no_change() {
    let lines = printed(BAG, "\n0 5 5\n1 6 2 1\n1 2\n");
    assert_eq!(lines, "5 1 1 5 2 2\n".replace(' ', "\t"));
}

#[test]
fn the_value_is_stored_once() {
    let lines = printed(BAG, "\n0 1 1\n0 9 1 9\n1 0\n");
    assert_eq!(lines, "1 2 0 9 0 9\n".replace(' ', "\t"));
}

#[test]
fn no_day_lines() {
    let lines = printed(BAG, "\n2 -1 0\n");
    assert_eq!(lines, "-1 0 0 0 0 -1\n0 0 0 0 0 0\n".replace(' ', "\t"));
}

#[test]
fn settings() {
    refused("", 21, FIRST - 1);
    for behind in [
        "\n",
        "\n\n",
        "\n0 1\n",
        "\n0 1 2 3\n",
        "\n0 2 1\n",
        "\n0 1 101\n",
        "\n0 1 2",
        "\n0 01 2\n",
    ] {
        refused(behind, 21, FIRST);
    }
    refused("\n0 -2147483648 2147483647\n", 21, FIRST);
    refused("\n3 1 2\n", 22, FIRST);
    refused("\n-1 1 2\n", 22, FIRST);
    assert_eq!(printed(BAG, "\n0 2147483548 2147483647\n").lines().count(), 100);
}

#[test]
fn day_lines() {
    for line in ["0", "0 1 2", "", "0 x", "0 2147483648", &["0 1"; 17].join(" ")] {
        refused(&format!("\n0 1 1\n0 1\n{line}\n"), 21, FIRST + 2);
    }
    refused("\n0 1 1\n0 1\n0 1", 21, FIRST + 2);
    refused("\n0 1 1\n0 1 3 1\n", 22, FIRST + 1);
    refused(&format!("\n0 1 1\n{}", "0 1\n".repeat(201)), 21, FIRST + 201);
    assert_eq!(printed(BAG, &format!("\n0 9 9\n{}", "0 9\n".repeat(200))), "9\t200\t0\t9\t0\t0\n");
    assert_eq!(
        printed(BAG, &format!("\n0 9 9\n{}\n", ["0 9"; 16].join(" "))),
        "9\t1\t0\t9\t0\t0\n"
    );
}

#[test]
fn form_before_names_and_the_rule_before_both() {
    refused("\n3 1 1\n3 1\n0\n", 21, FIRST + 2);
    refused("\n0 1 1\n3 1\n0 1\n-1 1\n", 22, FIRST + 1);
    assert_eq!(printed("1\n42 0 0 0 0 1\n", "\nx\n"), "refused 4 0\n");
    assert_eq!(printed("x\n", "\nx\n"), "refused 14 1\n");
}
