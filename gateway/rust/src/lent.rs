//! The one place that is unsafe: what is lent to the library, as the pointers and lengths that its functions take.
//!
//! It is sound because each pointer is made from a reference that lives through the call and stands beside the length
//! of its own slice, what is written is lent by `&mut` and so overlaps nothing else, and each function is proved to
//! touch only what is lent, to accept any numbers in it, and to return.

/// A count as its parameter wants it: the number, or the place of a number that the call may change.
pub(crate) trait Count<P> {
    fn lent(self) -> P;
}

impl Count<usize> for &mut usize {
    fn lent(self) -> usize {
        *self
    }
}

impl Count<*mut usize> for &mut usize {
    fn lent(self) -> *mut usize {
        self
    }
}

/// Calls a function of the library. Each argument is named by its kind: `number`, `place` (`&mut` to one number),
/// `list` (a slice), `room` (a slice to write in), and the columns of a state: `routing`, `neighbors`, and `.._mut`
/// where the call may change them. An argument is evaluated before the unsafe block, each under its own name.
macro_rules! status {
    ($function:ident[$($ready:expr,)*]) => {
        // SAFETY: as the module says.
        unsafe { $crate::raw::$function($($ready,)*) }
    };
    ($function:ident[$($ready:expr,)*] number $value:expr, $($rest:tt)*) => {{
        let x = $value;
        status!($function[$($ready,)* x,] $($rest)*)
    }};
    ($function:ident[$($ready:expr,)*] place $value:expr, $($rest:tt)*) => {{
        let x: &mut _ = $value;
        status!($function[$($ready,)* x,] $($rest)*)
    }};
    ($function:ident[$($ready:expr,)*] list $value:expr, $($rest:tt)*) => {{
        let x: &[_] = $value;
        status!($function[$($ready,)* x.as_ptr(), x.len(),] $($rest)*)
    }};
    ($function:ident[$($ready:expr,)*] room $value:expr, $($rest:tt)*) => {{
        let x: &mut [_] = $value;
        status!($function[$($ready,)* x.as_mut_ptr(), x.len(),] $($rest)*)
    }};
    ($function:ident[$($ready:expr,)*] routing $value:expr, $($rest:tt)*) => {{
        let x: &$crate::RoutingColumns = $value;
        status!($function[
            $($ready,)*
            x.route_keys.as_ptr(), x.route_keys.len(), x.route_words.as_ptr(), x.route_words.len(),
            x.route_usage.as_ptr(), x.route_usage.len(), x.routes,
            x.discovery_keys.as_ptr(), x.discovery_keys.len(), x.discovery_words.as_ptr(), x.discovery_words.len(),
            x.discovery_ends.as_ptr(), x.discovery_ends.len(), x.discoveries,
            x.record_keys.as_ptr(), x.record_keys.len(), x.record_lengths.as_ptr(), x.record_lengths.len(), x.records,
        ] $($rest)*)
    }};
    ($function:ident[$($ready:expr,)*] routing_mut $value:expr, $($rest:tt)*) => {{
        use $crate::lent::Count;
        let x: &mut $crate::RoutingColumns = $value;
        status!($function[
            $($ready,)*
            x.route_keys.as_mut_ptr(), x.route_keys.len(), x.route_words.as_mut_ptr(), x.route_words.len(),
            x.route_usage.as_mut_ptr(), x.route_usage.len(), (&mut x.routes).lent(),
            x.discovery_keys.as_mut_ptr(), x.discovery_keys.len(), x.discovery_words.as_mut_ptr(), x.discovery_words.len(),
            x.discovery_ends.as_mut_ptr(), x.discovery_ends.len(), (&mut x.discoveries).lent(),
            x.record_keys.as_mut_ptr(), x.record_keys.len(), x.record_lengths.as_mut_ptr(), x.record_lengths.len(),
            (&mut x.records).lent(),
        ] $($rest)*)
    }};
    ($function:ident[$($ready:expr,)*] neighbors $value:expr, $($rest:tt)*) => {{
        let x: &$crate::NeighborsColumns = $value;
        status!($function[
            $($ready,)*
            x.keys.as_ptr(), x.keys.len(), x.nwks.as_ptr(), x.nwks.len(), x.links.as_ptr(), x.links.len(),
            x.counts.as_ptr(), x.counts.len(), x.deadlines.as_ptr(), x.deadlines.len(), x.periods.as_ptr(), x.periods.len(),
            x.heard.as_ptr(), x.heard.len(), x.added.as_ptr(), x.added.len(), x.beacons.as_ptr(), x.beacons.len(),
            x.bytes.as_ptr(), x.bytes.len(), x.count,
            x.senders.as_ptr(), x.senders.len(), x.samples.as_ptr(), x.samples.len(), x.waiting,
        ] $($rest)*)
    }};
    ($function:ident[$($ready:expr,)*] neighbors_mut $value:expr, $($rest:tt)*) => {{
        use $crate::lent::Count;
        let x: &mut $crate::NeighborsColumns = $value;
        status!($function[
            $($ready,)*
            x.keys.as_mut_ptr(), x.keys.len(), x.nwks.as_mut_ptr(), x.nwks.len(), x.links.as_mut_ptr(), x.links.len(),
            x.counts.as_mut_ptr(), x.counts.len(), x.deadlines.as_mut_ptr(), x.deadlines.len(),
            x.periods.as_mut_ptr(), x.periods.len(), x.heard.as_mut_ptr(), x.heard.len(), x.added.as_mut_ptr(), x.added.len(),
            x.beacons.as_mut_ptr(), x.beacons.len(), x.bytes.as_mut_ptr(), x.bytes.len(), (&mut x.count).lent(),
            x.senders.as_mut_ptr(), x.senders.len(), x.samples.as_mut_ptr(), x.samples.len(), (&mut x.waiting).lent(),
        ] $($rest)*)
    }};
}

/// Calls a function of the library, and says whether it was answered.
macro_rules! call {
    ($function:ident: $($arguments:tt)*) => {
        $crate::refusal::answered(status!($function[] $($arguments)*))
    };
}

pub(crate) use {call, status};

/// The numbers of a list for a call that takes fewer than `N` of them. What is left out of a longer list changes
/// nothing: its call refuses `N` already.
pub(crate) fn numbers<T, X: Copy + Default, const N: usize>(list: &[T], number: impl Fn(&T) -> X) -> ([X; N], usize) {
    let mut all = [X::default(); N];
    for (place, element) in all.iter_mut().zip(list) {
        *place = number(element);
    }
    (all, list.len().min(N))
}
