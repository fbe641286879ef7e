// Says where the archives of the proved library lie: DEQIBUR_ARCHIVES has the folders, parted by colons.
fn main() {
    println!("cargo:rerun-if-env-changed=DEQIBUR_ARCHIVES");
    let folders = std::env::var("DEQIBUR_ARCHIVES").unwrap_or_default();
    for folder in folders.split(':').filter(|folder| !folder.is_empty()) {
        println!("cargo:rustc-link-search=native={folder}");
        for archive in ["libembed.a", "liblibc_c.a"] {
            println!("cargo:rerun-if-changed={folder}/{archive}");
        }
    }
}
