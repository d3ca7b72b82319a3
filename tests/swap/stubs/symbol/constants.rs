//! Stands in for pdb 0.8.0's src/symbol/constants.rs, which is not at hand: kinds of symbols by LLVM 14's
//! CodeViewSymbols.def; CPU and language as plain numbers.
use scroll::{ctx::TryFromCtx, Endian};

pub const S_ALIGN: u16 = 0x0402;
pub const S_ANNOTATIONREF: u16 = 0x1128;
pub const S_BLOCK16: u16 = 0x0107;
pub const S_BLOCK32: u16 = 0x1103;
pub const S_BLOCK32_ST: u16 = 0x0207;
pub const S_BUILDINFO: u16 = 0x114c;
pub const S_COBOLUDT: u16 = 0x1109;
pub const S_COBOLUDT_ST: u16 = 0x1004;
pub const S_COMPILE2: u16 = 0x1116;
pub const S_COMPILE2_ST: u16 = 0x1013;
pub const S_COMPILE3: u16 = 0x113c;
pub const S_CONSTANT: u16 = 0x1107;
pub const S_CONSTANT_ST: u16 = 0x1002;
pub const S_DATAREF: u16 = 0x1126;
pub const S_DATAREF_ST: u16 = 0x0401;
pub const S_END: u16 = 0x0006;
pub const S_EXPORT: u16 = 0x1138;
pub const S_GDATA32: u16 = 0x110d;
pub const S_GDATA32_ST: u16 = 0x1008;
pub const S_GMANDATA: u16 = 0x111d;
pub const S_GMANDATA_ST: u16 = 0x1021;
pub const S_GMANPROC: u16 = 0x112a;
pub const S_GMANPROC_ST: u16 = 0x101a;
pub const S_GPROC16: u16 = 0x0105;
pub const S_GPROC32: u16 = 0x1110;
pub const S_GPROC32_ID: u16 = 0x1147;
pub const S_GPROC32_ST: u16 = 0x100b;
pub const S_GPROCIA64: u16 = 0x1119;
pub const S_GPROCIA64_ID: u16 = 0x114b;
pub const S_GPROCIA64_ST: u16 = 0x1016;
pub const S_GPROCMIPS: u16 = 0x1115;
pub const S_GPROCMIPS_ID: u16 = 0x1149;
pub const S_GPROCMIPS_ST: u16 = 0x1011;
pub const S_GTHREAD32: u16 = 0x1113;
pub const S_GTHREAD32_ST: u16 = 0x100f;
pub const S_INLINESITE: u16 = 0x114d;
pub const S_INLINESITE2: u16 = 0x115d;
pub const S_INLINESITE_END: u16 = 0x114e;
pub const S_LABEL32: u16 = 0x1105;
pub const S_LABEL32_ST: u16 = 0x0209;
pub const S_LDATA32: u16 = 0x110c;
pub const S_LDATA32_ST: u16 = 0x1007;
pub const S_LMANDATA: u16 = 0x111c;
pub const S_LMANDATA_ST: u16 = 0x1020;
pub const S_LMANPROC: u16 = 0x112b;
pub const S_LMANPROC_ST: u16 = 0x101b;
pub const S_LOCAL: u16 = 0x113e;
pub const S_LPROC16: u16 = 0x0104;
pub const S_LPROC32: u16 = 0x110f;
pub const S_LPROC32_DPC: u16 = 0x1155;
pub const S_LPROC32_DPC_ID: u16 = 0x1156;
pub const S_LPROC32_ID: u16 = 0x1146;
pub const S_LPROC32_ST: u16 = 0x100a;
pub const S_LPROCIA64: u16 = 0x1118;
pub const S_LPROCIA64_ST: u16 = 0x1015;
pub const S_LPROCMIPS: u16 = 0x1114;
pub const S_LPROCMIPS_ST: u16 = 0x1010;
pub const S_LPROCREF: u16 = 0x1127;
pub const S_LPROCREF_ST: u16 = 0x0403;
pub const S_LTHREAD32: u16 = 0x1112;
pub const S_LTHREAD32_ST: u16 = 0x100e;
pub const S_MANCONSTANT: u16 = 0x112d;
pub const S_MANYREG: u16 = 0x110a;
pub const S_MANYREG2: u16 = 0x1117;
pub const S_MANYREG2_ST: u16 = 0x1014;
pub const S_MANYREG_ST: u16 = 0x1005;
pub const S_OBJNAME: u16 = 0x1101;
pub const S_OBJNAME_ST: u16 = 0x0009;
pub const S_PROCREF: u16 = 0x1125;
pub const S_PROCREF_ST: u16 = 0x0400;
pub const S_PROC_ID_END: u16 = 0x114f;
pub const S_PUB32: u16 = 0x110e;
pub const S_PUB32_ST: u16 = 0x1009;
pub const S_REGISTER: u16 = 0x1106;
pub const S_REGISTER_ST: u16 = 0x1001;
pub const S_REGREL32: u16 = 0x1111;
pub const S_SEPCODE: u16 = 0x1132;
pub const S_SKIP: u16 = 0x0007;
pub const S_ST_MAX: u16 = 0x1100;
pub const S_THUNK16: u16 = 0x0106;
pub const S_THUNK32: u16 = 0x1102;
pub const S_THUNK32_ST: u16 = 0x0206;
pub const S_TRAMPOLINE: u16 = 0x112c;
pub const S_UDT: u16 = 0x1108;
pub const S_UDT_ST: u16 = 0x1003;
pub const S_UNAMESPACE: u16 = 0x1124;
pub const S_UNAMESPACE_ST: u16 = 0x1029;
pub const S_WITH16: u16 = 0x0108;
pub const S_WITH32: u16 = 0x1104;
pub const S_WITH32_ST: u16 = 0x0208;

macro_rules! plain {
    ($name:ident, $inner:ty) => {
        /// A plain number here.
        #[derive(Clone, Copy, Debug, Eq, PartialEq)]
        pub struct $name(pub $inner);
        impl<'a> TryFromCtx<'a, Endian> for $name {
            type Error = scroll::Error;
            fn try_from_ctx(this: &'a [u8], le: Endian) -> scroll::Result<(Self, usize)> {
                TryFromCtx::try_from_ctx(this, le).map(|(i, s)| (Self(i), s))
            }
        }
    };
}
plain!(CPUType, u16);
plain!(SourceLanguage, u8);
