//! How memory is lent to a function as C has it: the only lists of pointers and lengths.

/// Calls a function. `ref x` lends x to be read and `mut x` to be written, a pointer and a length each; `..job` stands for a job's tile
/// size, sizes, weight and tables; anything else is handed over as it is. The caller says `unsafe`, and answers for what the function
/// requires.
#[macro_export]
macro_rules! lend {
    ($call:ident($($args:tt)*)) => {
        $crate::lend!(@ $call [] $($args)*,)
    };
    (@ $call:ident [$($given:expr,)*] $(,)?) => {
        $call($($given),*)
    };
    (@ $call:ident [$($given:expr,)*] ref $x:expr, $($rest:tt)*) => {
        $crate::lend!(@ $call [$($given,)* $x.as_ptr(), $x.len(),] $($rest)*)
    };
    (@ $call:ident [$($given:expr,)*] mut $x:expr, $($rest:tt)*) => {
        $crate::lend!(@ $call [$($given,)* $x.as_mut_ptr(), $x.len(),] $($rest)*)
    };
    (@ $call:ident [$($given:expr,)*] ..$job:ident, $($rest:tt)*) => {
        $crate::lend!(
            @ $call [$($given,)* $job.size, $job.s, $job.c, $job.t, $job.weight,]
            ref $job.tiles, ref $job.colours, ref $job.counts, $($rest)*
        )
    };
    (@ $call:ident [$($given:expr,)*] $x:expr, $($rest:tt)*) => {
        $crate::lend!(@ $call [$($given,)* $x,] $($rest)*)
    };
}

/// Calls a function of a run's with the job, its samples and their number in `$drawn`, and the memory, lent by `$kind`, `ref` or `mut`,
/// or by `$sometimes` what not every call writes. Its own are `$first` after the weight and `$own` at the end.
#[macro_export]
macro_rules! lend_run {
    ($call:ident, $job:ident, $drawn:ident, $memory:ident, $kind:tt / $sometimes:tt, [$($first:expr)?] $($own:tt)*) => {
        $crate::lend!($call(
            $job.size, $job.s, $job.c, $job.t, $drawn.n, $job.weight, $($first,)?
            ref $job.tiles, ref $job.colours, ref $job.counts, ref $drawn.samples,
            $sometimes $memory.order, $kind $memory.hints, $kind $memory.palette, $sometimes $memory.least, $kind $memory.record
            $($own)*
        ))
    };
}
