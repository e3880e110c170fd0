//! Where the linker puts the code counts: a short loop that lies across two
//! lines of 64 bytes can take a quarter more time, in the library and in the
//! reference. `SOVZEDAL_SHIFT=n` moves all code that is linked after this by
//! `n` bytes. Functions begin at multiples of 16, so 0, 16, 32 and 48 are all
//! the places there are, and the best time of the four tells of the code alone.

std::arch::global_asm!(
    ".pushsection .text.shift, \"axR\", @progbits",
    concat!(".skip ", env!("SOVZEDAL_SHIFT")),
    ".popsection",
);
