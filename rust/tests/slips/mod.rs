//! What the tests of the tests have in common: lists of slips, and whether the inputs tell a slip.

/// Declares `Slip`, with `Clean` for none, and lists of slips by their names. Each slip stands once: what it is, and if it has values,
/// the slips that are tried.
macro_rules! slips {
    ($($(#[$list_about:meta])* $list:ident {
        $($(#[$about:meta])* $slip:ident $(($($kind:ty),+) in $tried:expr)?,)+
    })+) => {
        #[derive(Clone, Copy, Debug, PartialEq, Eq)]
        enum Slip {
            Clean,
            $($($(#[$about])* $slip $(($($kind),+))?,)+)+
        }
        use Slip::*;
        $($(#[$list_about])* fn $list() -> Vec<Slip> {
            [$(slips!(@tried $slip $($tried)?)),+].concat()
        })+
    };
    (@tried $slip:ident) => { vec![$slip] };
    (@tried $slip:ident $tried:expr) => { Vec::from_iter($tried) };
}

/// Do as many as five of the inputs tell?
pub fn is_seen_often<Input>(inputs: impl Iterator<Item = Input>, tells: impl Fn(&Input) -> bool) -> bool {
    inputs.filter(tells).take(5).count() == 5
}
