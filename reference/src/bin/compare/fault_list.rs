// Wrong models: each has another expression at one place of src/machine, the wrong accounts one of src/account.rs.
// `build.rs` makes the faulty copies from these lists.

struct Fault {
    #[allow(dead_code)]
    says: &'static str,
    #[allow(dead_code)]
    right: &'static str,
    #[allow(dead_code)]
    wrong: &'static str,
}

const fn fault(says: &'static str, right: &'static str, wrong: &'static str) -> Fault {
    Fault { says, right, wrong }
}

include!("call_faults.rs");
include!("tick_faults.rs");
include!("request_faults.rs");
include!("state_faults.rs");
include!("kept_faults.rs");
include!("byte_faults.rs");
include!("latch_faults.rs");
include!("test_faults.rs");
include!("force_faults.rs");
include!("held_faults.rs");
include!("mode_faults.rs");
include!("speed_faults.rs");
include!("order_faults.rs");
include!("table_faults.rs");
include!("place_faults.rs");
include!("account_faults.rs");

/// Those of the machine, in order.
const MACHINE_FAULTS: [&[Fault]; 15] = [
    CALL_FAULTS,
    TICK_FAULTS,
    REQUEST_FAULTS,
    STATE_FAULTS,
    KEPT_FAULTS,
    BYTE_FAULTS,
    LATCH_FAULTS,
    TEST_FAULTS,
    FORCE_FAULTS,
    HELD_FAULTS,
    MODE_FAULTS,
    SPEED_FAULTS,
    ORDER_FAULTS,
    TABLE_FAULTS,
    PLACE_FAULTS,
];

/// All of them with their numbers, from 1: the machine's, then the account's.
fn faults() -> impl Iterator<Item = (usize, &'static Fault)> {
    (1..).zip(MACHINE_FAULTS.into_iter().flatten().chain(ACCOUNT_FAULTS))
}
