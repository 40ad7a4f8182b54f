//! Safe calls over C functions with the parameters of the filter bank, the estimates, the update, the rounds, finishing and
//! the spot: those of the library, and those of the plain C that the benchmark times beside it.

/// What a call's number says: nothing, or the refusal.
pub fn answer(number: u32) -> Result<(), u32> {
    match number {
        0 => Ok(()),
        refusal => Err(refusal),
    }
}

/// Declares seven C functions, which are named in this order, and a safe call over each.
#[macro_export]
macro_rules! frame_calls {
    (
        $demosaic_split:ident,
        $demosaic_join:ident,
        $demosaic_estimate:ident,
        $demosaic_update:ident,
        $demosaic_rounds:ident,
        $demosaic_finish:ident,
        $demosaic_spot:ident
    ) => {
        unsafe extern "C" {
            fn $demosaic_split(
                width: usize,
                height: usize,
                plane: *const i32,
                plane_len: usize,
                band1: *mut i32,
                band1_len: usize,
                band2: *mut i32,
                band2_len: usize,
                band3: *mut i32,
                band3_len: usize,
                band4: *mut i32,
                band4_len: usize,
            ) -> u32;

            fn $demosaic_join(
                width: usize,
                height: usize,
                band1: *const i32,
                band1_len: usize,
                band2: *const i32,
                band2_len: usize,
                band3: *const i32,
                band3_len: usize,
                band4: *const i32,
                band4_len: usize,
                sums: *mut i32,
                sums_len: usize,
            ) -> u32;

            fn $demosaic_estimate(
                width: usize,
                height: usize,
                layout: u32,
                mosaic: *const u16,
                mosaic_len: usize,
                red: *mut u16,
                red_len: usize,
                green: *mut u16,
                green_len: usize,
                blue: *mut u16,
                blue_len: usize,
            ) -> u32;

            fn $demosaic_update(
                width: usize,
                height: usize,
                layout: u32,
                mosaic: *const u16,
                mosaic_len: usize,
                green: *mut u16,
                green_len: usize,
                work: *mut i32,
                work_len: usize,
            ) -> u32;

            fn $demosaic_rounds(
                width: usize,
                height: usize,
                layout: u32,
                rounds: u32,
                threshold: u32,
                mosaic: *const u16,
                mosaic_len: usize,
                red: *mut u16,
                red_len: usize,
                green: *const u16,
                green_len: usize,
                blue: *mut u16,
                blue_len: usize,
                work: *mut i32,
                work_len: usize,
                wide_work: *mut i64,
                wide_work_len: usize,
            ) -> u32;

            fn $demosaic_finish(
                width: usize,
                height: usize,
                layout: u32,
                rounds: u32,
                threshold: u32,
                mosaic: *const u16,
                mosaic_len: usize,
                red: *mut u16,
                red_len: usize,
                green: *mut u16,
                green_len: usize,
                blue: *mut u16,
                blue_len: usize,
                work: *mut i32,
                work_len: usize,
                wide_work: *mut i64,
                wide_work_len: usize,
            ) -> u32;

            fn $demosaic_spot(
                width: usize,
                height: usize,
                red: *const u16,
                red_len: usize,
                green: *const u16,
                green_len: usize,
                blue: *const u16,
                blue_len: usize,
                row: usize,
                column: usize,
                spot_red: *mut f64,
                spot_green: *mut f64,
                spot_blue: *mut f64,
                lit: *mut u8,
                reading: *mut u8,
            ) -> u32;
        }

        pub fn split(width: usize, height: usize, plane: &[i32], bands: [&mut [i32]; 4]) -> Result<(), u32> {
            let [band1, band2, band3, band4] = bands;
            // each pointer and length are those of one slice, and no slice that is written overlaps another
            $crate::frame_calls::answer(unsafe {
                $demosaic_split(
                    width,
                    height,
                    plane.as_ptr(),
                    plane.len(),
                    band1.as_mut_ptr(),
                    band1.len(),
                    band2.as_mut_ptr(),
                    band2.len(),
                    band3.as_mut_ptr(),
                    band3.len(),
                    band4.as_mut_ptr(),
                    band4.len(),
                )
            })
        }

        pub fn join(width: usize, height: usize, bands: [&[i32]; 4], sums: &mut [i32]) -> Result<(), u32> {
            let [band1, band2, band3, band4] = bands;
            // as in the split
            $crate::frame_calls::answer(unsafe {
                $demosaic_join(
                    width,
                    height,
                    band1.as_ptr(),
                    band1.len(),
                    band2.as_ptr(),
                    band2.len(),
                    band3.as_ptr(),
                    band3.len(),
                    band4.as_ptr(),
                    band4.len(),
                    sums.as_mut_ptr(),
                    sums.len(),
                )
            })
        }

        pub fn estimate(
            width: usize,
            height: usize,
            layout: u32,
            mosaic: &[u16],
            planes: [&mut [u16]; 3],
        ) -> Result<(), u32> {
            let [red, green, blue] = planes;
            // as in the split
            $crate::frame_calls::answer(unsafe {
                $demosaic_estimate(
                    width,
                    height,
                    layout,
                    mosaic.as_ptr(),
                    mosaic.len(),
                    red.as_mut_ptr(),
                    red.len(),
                    green.as_mut_ptr(),
                    green.len(),
                    blue.as_mut_ptr(),
                    blue.len(),
                )
            })
        }

        pub fn update(
            width: usize,
            height: usize,
            layout: u32,
            mosaic: &[u16],
            green: &mut [u16],
            work: &mut [i32],
        ) -> Result<(), u32> {
            // as in the split
            $crate::frame_calls::answer(unsafe {
                $demosaic_update(
                    width,
                    height,
                    layout,
                    mosaic.as_ptr(),
                    mosaic.len(),
                    green.as_mut_ptr(),
                    green.len(),
                    work.as_mut_ptr(),
                    work.len(),
                )
            })
        }

        pub fn rounds(
            fields: &$crate::packet::Fields,
            mosaic: &[u16],
            red: &mut [u16],
            green: &[u16],
            blue: &mut [u16],
            work: &mut [i32],
            wide_work: &mut [i64],
        ) -> Result<(), u32> {
            // as in the split
            $crate::frame_calls::answer(unsafe {
                $demosaic_rounds(
                    fields.width,
                    fields.height,
                    fields.layout,
                    fields.rounds,
                    fields.threshold,
                    mosaic.as_ptr(),
                    mosaic.len(),
                    red.as_mut_ptr(),
                    red.len(),
                    green.as_ptr(),
                    green.len(),
                    blue.as_mut_ptr(),
                    blue.len(),
                    work.as_mut_ptr(),
                    work.len(),
                    wide_work.as_mut_ptr(),
                    wide_work.len(),
                )
            })
        }

        pub fn finish(
            fields: &$crate::packet::Fields,
            mosaic: &[u16],
            planes: [&mut [u16]; 3],
            work: &mut [i32],
            wide_work: &mut [i64],
        ) -> Result<(), u32> {
            let [red, green, blue] = planes;
            // as in the split
            $crate::frame_calls::answer(unsafe {
                $demosaic_finish(
                    fields.width,
                    fields.height,
                    fields.layout,
                    fields.rounds,
                    fields.threshold,
                    mosaic.as_ptr(),
                    mosaic.len(),
                    red.as_mut_ptr(),
                    red.len(),
                    green.as_mut_ptr(),
                    green.len(),
                    blue.as_mut_ptr(),
                    blue.len(),
                    work.as_mut_ptr(),
                    work.len(),
                    wide_work.as_mut_ptr(),
                    wide_work.len(),
                )
            })
        }

        pub fn spot(
            view: &$crate::spot::View,
            planes: [&[u16]; 3],
            spot: [&mut f64; 3],
            lit: &mut u8,
            reading: &mut u8,
        ) -> Result<(), u32> {
            let [red, green, blue] = planes;
            let [spot_red, spot_green, spot_blue] = spot;
            // as in the split; each other pointer is that of one number
            $crate::frame_calls::answer(unsafe {
                $demosaic_spot(
                    view.width,
                    view.height,
                    red.as_ptr(),
                    red.len(),
                    green.as_ptr(),
                    green.len(),
                    blue.as_ptr(),
                    blue.len(),
                    view.row,
                    view.column,
                    spot_red,
                    spot_green,
                    spot_blue,
                    lit,
                    reading,
                )
            })
        }
    };
}
