//! Stand-in for wayland_sys: the three C types that are exported again, of which nothing here uses a part.
#![allow(non_camel_case_types)]

pub mod common {
    #[derive(Debug)]
    pub struct wl_interface;
    pub struct wl_argument;
    pub struct wl_message;
}
