//! Moves the code of both parsers in the program: as many bytes as the variable PENNE_BENCH_SPACE says
//! when this is built are put before them. The place of a loop decides how it is fetched and
//! predicted, so that times at one place say little.

const SPACE: usize = match option_env!("PENNE_BENCH_SPACE") {
    Some(text) => match usize::from_str_radix(text, 10) {
        Ok(bytes) => bytes,
        Err(_) => panic!("PENNE_BENCH_SPACE is a number of bytes"),
    },
    None => 0,
};

// The flag R keeps what nothing refers to.
std::arch::global_asm!(
    ".pushsection .text.placement,\"axR\",@progbits",
    ".space {space}",
    ".popsection",
    space = const SPACE,
);
