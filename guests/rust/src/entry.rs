//! What a function exports.

/// Exports this function, from nothing to an `i32`, as `main`: what a call runs, and whose result is the call's.
///
/// LLVM gives a `main` from nothing to an `i32` the two parameters of C's, so the result is handed on as a pointer, which is an `i32`
/// of the module too.
#[macro_export]
macro_rules! main {
    ($run:path) => {
        #[export_name = "main"]
        extern "C" fn exported_main() -> *const u8 {
            let result: i32 = $run();
            result as isize as *const u8
        }
    };
}

/// Exports this function, from nothing to nothing, as `init`: it runs once, before the snapshot is taken that every call starts from.
/// It may make no host call.
#[macro_export]
macro_rules! init {
    ($run:path) => {
        #[export_name = "init"]
        extern "C" fn exported_init() {
            $run()
        }
    };
}
