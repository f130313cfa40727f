//! Shares in a folder, as the program `sharing` writes them.

use crate::folder::Folder;

/// A folder with the shares of a message of 25 bytes in `shares`: five blocks of 6 bytes in the default scheme, and 30 bytes
/// each.
pub fn folder_with_shares(test: &str) -> Folder {
    let folder = Folder::new(test);
    split(&folder, "", 25, 60);
    folder
}

/// Splits a message of this length, with as many keys as it needs, into `shares`, in place of what is there.
pub fn split(folder: &Folder, options: &str, length: usize, keys: usize) {
    folder.remove("shares");
    folder.write("message", length);
    folder.write("keys", keys);
    folder.says(&format!("split {options}message keys shares"));
}

/// The shares of these parties, as words.
pub fn of(parties: &[usize]) -> String {
    parties.iter().map(|party| format!(" {party}=shares/share-{party}")).collect()
}
