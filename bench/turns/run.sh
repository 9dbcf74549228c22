#!/bin/sh
# Times turns at the device that threads share, with 1, 2, 4 and 8 passes on as many threads: for each it prints how many
# events there were, by how many turns, the time that they took, how many events that is in a second, and how long it is from
# one turn to the next. Two lines more tell how long a turn is, with all of the lock and with nobody else at it: one that asks where
# a client stands, one that begins a context, one that locks a CRTC. The last two tell how many turns a client takes that plays
# alone: one that comes to its end, and one that waits for an event, a thousand times at most. Builds the program of main.rt.txt
# beside copies of the crates that it uses, in a folder of its own; the copies tell how many turns were taken. It builds without a
# proof, and without optimisation, as `rt try` does.
set -eu
here=$(cd "$(dirname "$0")" && pwd)
. "$here/../program.sh"
(cd "$top" && tar -cf - --exclude=out HANDLES crates.txt crates) | tar -xf - -C "$work"
# Each turn draws a number.
cat >>"$work/crates/kms_histlock/src/lock.rt" <<'END'

impl<T: Kept> HistLock<T> {
    /// How many turns were taken, as far as one load tells.
    pub fn turns(&self) -> u64 {
        self.table.shared.peek(crate::rules::TICKETS)
    }
}
END
cat >>"$work/crates/kms_device/src/device.rt" <<'END'

impl Device {
    /// How many turns were taken, as far as one load tells.
    pub fn turns(&self) -> u64 {
        self.lock.turns()
    }
}
END
program bench_turns kms_io kms_model kms_device kms_players kms_pool kms_script kms_thread_tests
rt try 2>&1 | grep "passes:\|a turn\|a client\|error"
