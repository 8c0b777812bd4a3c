// The calls of the archive, a slice as its address and length. A call answers number 0 and a value; another number stops the benchmark.

#[repr(C)]
struct Told {
    number: u64,
    value: u64,
}

impl Told {
    fn value(self) -> u64 {
        assert_eq!(self.number, 0, "what is lent does not fit");
        self.value
    }
}

extern "C" {
    fn tables_waiting_insert(ws: *mut u64, len: usize, n: usize, row: *const u64, width: usize) -> Told;
    fn tables_waiting_due(ws: *const u64, len: usize, n: usize, until: u64) -> Told;
    fn tables_waiting_drop(ws: *mut u64, len: usize, n: usize, k: usize) -> Told;
    fn tables_marks_has(seen: *const u64, len: usize, count: usize, id: u64) -> Told;
    fn tables_marks_add(seen: *mut u64, len: usize, count: usize, id: u64) -> Told;
    fn tables_marks_remove(seen: *mut u64, len: usize, count: usize, id: u64) -> Told;
    fn tables_ring_count(ws: *const u64, len: usize, rings: usize, r: usize) -> Told;
    fn tables_ring_turn(ws: *mut u64, len: usize, rings: usize, r: usize, k: usize, class: u64, wire: u64, tag: u64) -> Told;
    fn tables_log_push(log: *mut u64, len: usize, capacity: usize, row: *const u64, width: usize) -> Told;
    fn tables_log_drain(log: *mut u64, len: usize, capacity: usize, out: *mut u64, room: usize) -> Told;
    fn tables_copies_near(ws: *const u64, len: usize, n: usize, hosts: u64, kinds: u64, classes: u64) -> Told;
    fn tables_rings_near(ws: *const u64, len: usize, rings: usize, classes: u64, wire: u64) -> Told;
}

pub fn insert(ws: &mut [u64], n: usize, row: &[u64; 12]) {
    unsafe { tables_waiting_insert(ws.as_mut_ptr(), ws.len(), n, row.as_ptr(), 12) }.value();
}
pub fn due(ws: &[u64], n: usize, until: u64) -> usize {
    unsafe { tables_waiting_due(ws.as_ptr(), ws.len(), n, until) }.value() as usize
}
pub fn drop_front(ws: &mut [u64], n: usize, k: usize) {
    unsafe { tables_waiting_drop(ws.as_mut_ptr(), ws.len(), n, k) }.value();
}
pub fn has(seen: &[u64], count: usize, id: u64) -> bool {
    unsafe { tables_marks_has(seen.as_ptr(), seen.len(), count, id) }.value() == 1
}
pub fn add(seen: &mut [u64], count: usize, id: u64) -> usize {
    unsafe { tables_marks_add(seen.as_mut_ptr(), seen.len(), count, id) }.value() as usize
}
pub fn remove(seen: &mut [u64], count: usize, id: u64) -> usize {
    unsafe { tables_marks_remove(seen.as_mut_ptr(), seen.len(), count, id) }.value() as usize
}
pub fn ring_count(ws: &[u64], rings: usize, r: usize) -> u64 {
    unsafe { tables_ring_count(ws.as_ptr(), ws.len(), rings, r) }.value()
}
pub fn ring_turn(ws: &mut [u64], rings: usize, r: usize, k: usize, e: [u64; 3]) -> u64 {
    unsafe { tables_ring_turn(ws.as_mut_ptr(), ws.len(), rings, r, k, e[0], e[1], e[2]) }.value()
}
pub fn log_push(log: &mut [u64], capacity: usize, row: &[u64; 8]) {
    unsafe { tables_log_push(log.as_mut_ptr(), log.len(), capacity, row.as_ptr(), 8) }.value();
}
pub fn log_drain(log: &mut [u64], capacity: usize, out: &mut [u64]) -> u64 {
    unsafe { tables_log_drain(log.as_mut_ptr(), log.len(), capacity, out.as_mut_ptr(), out.len()) }.value()
}
pub fn copies_near(ws: &[u64], n: usize, hosts: u64, kinds: u64, classes: u64) -> bool {
    unsafe { tables_copies_near(ws.as_ptr(), ws.len(), n, hosts, kinds, classes) }.value() == 1
}
pub fn rings_near(ws: &[u64], rings: usize, classes: u64, wire: u64) -> bool {
    unsafe { tables_rings_near(ws.as_ptr(), ws.len(), rings, classes, wire) }.value() == 1
}
