//! One setting for every code.

use crate::ascii::{write_ascii, AsciiSetting};
use crate::binary::{write_binary, BinarySetting};
use crate::refusal::Refusal;
use crate::scale::Record;

/// How a code is written, binary or ASCII. The default is that of [`AsciiSetting`].
#[derive(Clone, Copy, PartialEq, Eq, Debug, Hash)]
pub enum Setting {
    /// CUC, CDS or CCS, as the P octet says.
    Binary(BinarySetting),
    /// ASCII A or B.
    Ascii(AsciiSetting),
}

impl Default for Setting {
    fn default() -> Setting {
        Setting::Ascii(AsciiSetting::default())
    }
}

/// Writes the code of a moment to the first bytes of `out` and answers how many they are: [`write_binary`]
/// or [`write_ascii`], as the setting says.
///
/// ```
/// use honigzange::{write, BinarySetting, Record, Setting};
///
/// // 2016-12-31T23:59:60 UTC as CUC with four coarse octets, and in the default setting.
/// let leap = Record { sec: 1_861_920_036, ticks: 0 };
/// let cuc = Setting::Binary(BinarySetting { p: 0x1C, epoch: 0, front: true });
/// let mut out = [0; 24];
/// assert_eq!(write(leap, cuc, &mut out), Ok(5));
/// assert_eq!(out[..5], [0x1C, 0x6E, 0xFA, 0xA5, 0x24]);
/// assert_eq!(write(leap, Setting::default(), &mut out), Ok(24));
/// assert_eq!(&out, b"2016-12-31T23:59:60.000Z");
/// ```
pub fn write(record: Record, setting: Setting, out: &mut [u8]) -> Result<usize, Refusal> {
    match setting {
        Setting::Binary(setting) => write_binary(record, setting, out),
        Setting::Ascii(setting) => write_ascii(record, setting, out),
    }
}
