//! The five records, as one thing: a kind of record over either part type.
use crate::functions::Function;
use crate::original::{Dual, Dual2, Dual3, DualNum, DualNumFloat, HyperDual, HyperHyperDual};
use crate::supplied::Supplied;

/// What a record is made of: f64, or the float whose outside functions are supplied.
pub trait Part: DualNumFloat + DualNum<Primitive = Self> {
    fn of(value: f64) -> Self;
    fn value(self) -> f64;
}

impl Part for f64 {
    fn of(value: f64) -> Self {
        value
    }
    fn value(self) -> f64 {
        self
    }
}

impl Part for Supplied {
    fn of(value: f64) -> Self {
        Supplied(value)
    }
    fn value(self) -> f64 {
        self.0
    }
}

/// A record over `F`, read and built by its parts in the order of its fields.
pub trait Record<F: Part>: DualNum<Primitive = F, InnerDual = F> + Copy {
    fn of(parts: &[f64]) -> Self;
    fn parts(&self) -> Vec<f64>;
    /// Its `derivative` functions, by their numbers in `Function`.
    fn derivative(self, function: Function) -> Self;
}

/// A kind of record, whatever its part type.
pub trait Kind {
    const NAME: &'static str;
    const PARTS: usize;
    const DERIVATIVES: &'static [Function];
    type Record<F: Part>: Record<F>;

    /// A kind has those `derivative` functions that its type has, `sph_j1_series` where it carries
    /// third derivatives, and every other function.
    fn offers(function: Function) -> bool {
        match function {
            Function::Derivative
            | Function::Derivative1
            | Function::Derivative2
            | Function::Derivative3 => Self::DERIVATIVES.contains(&function),
            Function::SphJ1Series => <Self::Record<f64> as DualNum>::NDERIV == 3,
            _ => true,
        }
    }
}

macro_rules! kind {
    ($kind:ident, $record:ident, $name:literal, [$($part:ident),*],
        [$($function:ident $derivative:ident),*]) => {
        pub struct $kind;

        impl Kind for $kind {
            const NAME: &'static str = $name;
            const PARTS: usize = [$(stringify!($part)),*].len();
            const DERIVATIVES: &'static [Function] = &[$(Function::$function),*];
            type Record<F: Part> = $record<F>;
        }

        impl<F: Part> Record<F> for $record<F> {
            fn of(parts: &[f64]) -> Self {
                let mut next = parts.iter().map(|x| F::of(*x));
                $record { $($part: next.next().expect("a part")),* }
            }
            fn parts(&self) -> Vec<f64> {
                vec![$(self.$part.value()),*]
            }
            fn derivative(self, function: Function) -> Self {
                match function {
                    $(Function::$function => self.$derivative(),)*
                    _ => panic!("no such derivative"),
                }
            }
        }
    };
}

kind!(DualKind, Dual, "dual", [re, eps], [Derivative derivative]);
kind!(Dual2Kind, Dual2, "dual2", [re, v1, v2], [Derivative derivative]);
kind!(Dual3Kind, Dual3, "dual3", [re, v1, v2, v3], [Derivative derivative]);
kind!(
    HyperDualKind, HyperDual, "hyperdual", [re, eps1, eps2, eps1eps2],
    [Derivative1 derivative1, Derivative2 derivative2]
);
kind!(
    HyperHyperDualKind, HyperHyperDual, "hyperhyperdual",
    [re, eps1, eps2, eps3, eps1eps2, eps1eps3, eps2eps3, eps1eps2eps3],
    [Derivative1 derivative1, Derivative2 derivative2, Derivative3 derivative3]
);
