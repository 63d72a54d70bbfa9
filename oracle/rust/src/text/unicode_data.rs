//! The lists of SCOPE 2.2 and 12.1 in their order, under the names that the Rust has for them.

macro_rules! list {
    ($name:ident: $($value:ident)*) => {
        #[derive(Copy, Clone, PartialEq, Eq)]
        pub enum $name { $($value),* }

        impl $name {
            pub const ALL: &'static [Self] = &[$(Self::$value),*];

            pub fn from_code(code: u8) -> Option<Self> {
                Self::ALL.get(code as usize).copied()
            }

            pub const fn mask(self) -> u32 {
                1 << self as u32
            }
        }

        impl Default for $name {
            fn default() -> Self {
                Self::ALL[0]
            }
        }
    };
}

list!(ClusterBreak: XX CN CR LF L V T LV LVT RI EX SM ZWJ PP);
list!(UseClass: B CMAbv CMBlw CS FAbv FBlw FM FPst GB H HN IND MAbv MBlw MPre MPst N O R Rsv S
    SMAbv SMBlw SUB VAbv VBlw VMAbv VMBlw VMPre VMPst VPre VPst VS WJ ZWJ ZWNJ Rest);
list!(MyanmarClass: A As C D D0 DB H IV J MH MR MW MY O P PT R S V VAbv VBlw VPre VPst VS WJ Rest);
list!(Category: Other Format Control);
list!(WordBreak: Other CR LF NL Extend ZWJ FO WSegSpace LE HL ML MB MN NU SQ DQ KA EX RI);
list!(LineBreak: AI AL B2 BA BB BK CB CJ CL CM CP CR EB EM EX GL H2 H3 HL HY ID IN IS JL JT JV LF
    NL NS NU OP PO PR QU RI SA SG SP SY WJ XX ZW ZWJ);
