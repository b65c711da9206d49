//! Sheets with a kernel of a given size, found by trying.

use second::reduction::Reduction;
use second::sheet::Sheet;

use crate::draft::Draft;
use crate::extremes;
use crate::random::Random;

/// A random sheet that reduces to exactly this many grants; for about a hundred of them.
pub fn with_kernel(random: &mut Random, size: usize) -> Draft {
    random.until_found(|random| {
        let users = random.between(17, 22);
        let permissions = random.between(17, 22);
        let grants = size + random.between(5, 20);
        let draft = extremes::with_grants(random, users, permissions, grants);
        (kernel_size(&draft) == size).then_some(draft)
    })
}

/// The size of the kernel of an acceptable sheet.
fn kernel_size(draft: &Draft) -> usize {
    let sheet = Sheet::read(&draft.bytes()).expect("a draft within the limits");
    Reduction::of(&sheet).kernel.len()
}
