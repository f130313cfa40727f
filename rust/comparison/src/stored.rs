//! Shares that were stored under the former default.

use crate::cases::Form;

/// Five shares of a message, party after party, as they were stored: split without a scheme by the program of before the
/// default changed, under the keys below. They are not made anew.
pub struct Stored {
    pub name: &'static str,
    pub form: Form,
    pub message: &'static [u8],
    pub shares: &'static [u8],
}

pub const KEYS: [u8; 18] = [41, 114, 187, 4, 77, 150, 223, 40, 113, 186, 3, 76, 149, 222, 39, 112, 185, 2];

pub const STORED: [Stored; 4] = [
    Stored {
        name: "letter-padded",
        form: Form::Padded,
        message: b"Call the client back before noon.",
        shares: &[
            11, 128, 205, 43, 35, 222, 253, 48, 137, 100, 151, 62, 73, 20, 179, 147, 79, 2, // party 1
            231, 13, 171, 158, 172, 74, 235, 157, 77, 54, 80, 147, 46, 124, 212, 241, 5, 2, // 2
            182, 113, 182, 172, 246, 51, 222, 153, 227, 59, 50, 221, 42, 107, 222, 244, 6, 2, // 3
            73, 163, 54, 22, 96, 28, 27, 46, 71, 160, 56, 74, 60, 162, 156, 247, 249, 2, // 4
            90, 54, 235, 46, 150, 17, 108, 234, 233, 181, 172, 4, 56, 181, 150, 242, 250, 2, // 5
        ],
    },
    Stored {
        name: "letter-earlier",
        form: Form::Earlier,
        message: b"Call the client back before noon.",
        shares: &[
            11, 128, 205, 43, 35, 222, 253, 48, 9, 100, 151, 62, 73, 20, 179, 147, 79, 2, // party 1
            231, 13, 171, 158, 172, 74, 235, 157, 123, 54, 80, 147, 46, 124, 212, 241, 5, 2, // 2
            182, 113, 182, 172, 246, 51, 222, 153, 85, 59, 50, 221, 42, 107, 222, 244, 6, 2, // 3
            73, 163, 54, 22, 96, 28, 27, 46, 159, 160, 56, 74, 60, 162, 156, 247, 249, 2, // 4
            90, 54, 235, 46, 150, 17, 108, 234, 177, 181, 172, 4, 56, 181, 150, 242, 250, 2, // 5
        ],
    },
    Stored {
        name: "short-padded",
        form: Form::Padded,
        message: b"Noon.",
        shares: &[
            9, 220, 187, 106, 34, 150, // party 1
            253, 24, 187, 216, 147, 150, // 2
            164, 182, 187, 182, 252, 150, // 3
            107, 18, 187, 167, 234, 150, // 4
            70, 188, 187, 201, 133, 150, // 5
        ],
    },
    Stored {
        name: "short-earlier",
        form: Form::Earlier,
        message: b"Noon.",
        shares: &[
            9, 92, 187, 106, 34, 150, // party 1
            253, 46, 187, 216, 147, 150, // 2
            164, 0, 187, 182, 252, 150, // 3
            107, 202, 187, 167, 234, 150, // 4
            70, 228, 187, 201, 133, 150, // 5
        ],
    },
];
