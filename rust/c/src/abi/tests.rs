//! The version and the statuses are those of the header.

use super::{ABI, FINGERPRINT, GdStatus};
use crate::exports::gd_version;

const TEXT: &str = include_str!("../../include/gpu_descriptor.h");

/// The number that the header gives a name, by `NAME = 1` or `#define NAME 1u`.
fn number_of(name: &str) -> u32 {
    let is_given = |at: &usize| {
        TEXT[..*at].ends_with("#define ") || TEXT[at + name.len()..].starts_with(" = ")
    };
    let mut places = TEXT.match_indices(name).map(|(at, _)| at).filter(is_given);
    let at = places.next().expect(name) + name.len();
    let digits = TEXT[at..].trim_start_matches([' ', '=']);
    let end = digits.find(|it: char| !it.is_ascii_digit()).expect(name);
    digits[..end].parse().expect(name)
}

#[test]
fn the_version_is_the_headers() {
    let parts = ["MAJOR", "MINOR", "PATCH"].map(|part| number_of(&format!("GD_VERSION_{part}")));
    assert_eq!(gd_version(), parts[0] << 22 | parts[1] << 12 | parts[2]);
    assert_eq!(ABI, u64::from(number_of("GD_ABI")));
}

/// A struct that the fingerprint leaves out could change its size unnoticed.
#[cfg(target_pointer_width = "64")]
#[test]
fn the_fingerprint_has_each_size() {
    assert_eq!(
        FINGERPRINT.to_be_bytes(),
        [32, 5, 104, 40, 64, 16, 16, 24],
        "statistics of a layout, ABI, statistics, device, pool, allocator, layout, set"
    );
}

/// Each status of the header, except those of other headers, has its number here.
#[test]
fn statuses_are_the_headers() {
    let statuses = [
        ("GD_OK", GdStatus::OK),
        ("GD_OUT_OF_DEVICE_MEMORY", GdStatus::OUT_OF_DEVICE_MEMORY),
        ("GD_OUT_OF_HOST_MEMORY", GdStatus::OUT_OF_HOST_MEMORY),
        ("GD_FRAGMENTATION", GdStatus::FRAGMENTATION),
        ("GD_OUT_OF_POOL_MEMORY", GdStatus::OUT_OF_POOL_MEMORY),
        ("GD_DEVICE_LOST", GdStatus::DEVICE_LOST),
        ("GD_NULL_POINTER", GdStatus::NULL_POINTER),
        ("GD_BAD_ALLOCATOR", GdStatus::BAD_ALLOCATOR),
        ("GD_BAD_LAYOUT", GdStatus::BAD_LAYOUT),
        ("GD_BAD_SET", GdStatus::BAD_SET),
        ("GD_BAD_FLAGS", GdStatus::BAD_FLAGS),
        ("GD_BAD_COUNTS", GdStatus::BAD_COUNTS),
        ("GD_BAD_RESULT", GdStatus::BAD_RESULT),
        ("GD_BUSY", GdStatus::BUSY),
        ("GD_OUTSTANDING", GdStatus::OUTSTANDING),
        ("GD_INTERNAL_ERROR", GdStatus::INTERNAL_ERROR),
        ("GD_BAD_VERSION", GdStatus::BAD_VERSION),
    ];
    for (name, status) in statuses {
        assert_eq!(status.0, number_of(name), "{name}");
        assert_eq!(status.name().to_str(), Ok(name));
    }
    let known = (0..100).filter(|it| GdStatus(*it).name() != c"unknown status");
    assert_eq!(known.count(), statuses.len());
    let first = TEXT.find("GD_OK = 0").unwrap();
    let list = &TEXT[first..first + TEXT[first..].find("};").unwrap()];
    assert_eq!(list.matches(" = ").count(), statuses.len());
}
