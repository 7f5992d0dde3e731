//! The exported library, opened by path.

use std::ffi::{c_char, c_int, c_void, CStr, CString};

extern "C" {
    fn dlopen(path: *const c_char, flags: c_int) -> *mut c_void;
    fn dlsym(handle: *mut c_void, name: *const c_char) -> *mut c_void;
    fn dlerror() -> *const c_char;
}

const RTLD_NOW: c_int = 2;

type Numbers = *const u32;
type Room = *mut u32;
type Bytes = *const u8;
type Text = *mut u8;
type Doubles = *mut f64;

macro_rules! exported {
    ($($name:ident($($argument:ty),*);)*) => {
        pub struct Library {
            $(pub $name: unsafe extern "C" fn($($argument),*) -> u32,)*
        }

        impl Library {
            #[allow(clippy::missing_transmute_annotations)]
            fn from_handle(handle: *mut c_void) -> Library {
                Library {
                    // SAFETY: the symbol has the type that the header gives it, which is the field's.
                    $($name: unsafe {
                        std::mem::transmute(symbol(handle, concat!("okubinrafo_", stringify!($name))))
                    },)*
                }
            }
        }
    };
}

exported! {
    enter(
        Room, usize, Room, usize, Room, usize, Room, usize, Room, usize, u32, u32, u32, u32, u32, u32, Numbers, usize
    );
    supply(Room, usize, Room, usize, Room, usize, Room, usize, Room, usize, u32, u32, Numbers, usize);
    take_back(Room, usize, Room, usize, Room, usize, Room, usize, Room, usize, u32, u32);
    withdraw(Room, usize, Room, usize, Room, usize, Room, usize, Room, usize, u32, u32);
    replay(Room, usize, Room, usize, Room, usize, Room, usize, Room, usize, u32, Numbers, usize, Room, usize);
    load(
        Numbers, usize, Numbers, usize, Numbers, usize, Numbers, usize, Numbers, usize, u32, u32, u32, *mut u64, usize
    );
    account(
        Numbers, usize, Numbers, usize, Numbers, usize, Numbers, usize, Numbers, usize, u32, u32, u32, *mut u64, usize
    );
    verdict(
        Numbers, usize, Numbers, usize, Numbers, usize, Numbers, usize, Numbers, usize, u32, u32, u32, u32, Room, usize
    );
    contours(Numbers, usize, u32, u32, u32, u32, u32, u32, Room, usize, Room, usize, Room, usize, Room, usize);
    print_contours(Numbers, usize, u32, u32, u32, u32, u32, u32, Text, usize, Room, usize);
    crossing(Numbers, usize, u32, u32, u32, u32, u32, u32, u32, Room, usize, Doubles, usize);
    map_point(Numbers, usize, u32, u32, u32, u32, u32, u32, u32, Room, usize, Doubles, usize);
    map_points(Numbers, usize, u32, u32, u32, u32, u32, u32, Numbers, usize, Room, usize, Doubles, usize);
    read_row(Bytes, usize, u32, Room, usize, Room, usize);
    write_row(Numbers, usize, Numbers, usize, u32, Text, usize, Room, usize);
    read_network(Bytes, usize, Room, usize, Room, usize);
    write_network(Numbers, usize, u32, u32, u32, u32, u32, Text, usize, Room, usize);
    couple(
        Numbers, usize, Numbers, usize, Numbers, usize, Numbers, usize, Numbers, usize, Numbers, usize, Numbers, usize,
        Numbers, usize, Numbers, usize, Numbers, usize, Numbers, usize, Numbers, usize, Numbers, usize, Numbers, usize,
        Numbers, usize, Room, usize
    );
    sentence(u32, Text, usize, Room, usize);
}

fn symbol(handle: *mut c_void, name: &str) -> *mut c_void {
    let name = CString::new(name).expect("a name has no zero byte");
    // SAFETY: the handle is that of an open library.
    let found = unsafe { dlsym(handle, name.as_ptr()) };
    assert!(!found.is_null(), "the library of OKUBINRAFO_LIB has no function {name:?}");
    found
}

impl Library {
    pub fn from_environment() -> Library {
        let path = std::env::var("OKUBINRAFO_LIB")
            .expect("OKUBINRAFO_LIB must name the shared library that is compared with the reference");
        let name = CString::new(path.clone()).expect("a path has no zero byte");
        // SAFETY: dlopen and dlerror of the C library with a C string.
        let handle = unsafe { dlopen(name.as_ptr(), RTLD_NOW) };
        if handle.is_null() {
            let reason = unsafe { CStr::from_ptr(dlerror()) }.to_string_lossy();
            panic!("OKUBINRAFO_LIB={path} can't be opened: {reason}");
        }
        Library::from_handle(handle)
    }
}
