//! Misuse that the compiler refuses, each beside the same lines without it.
//!
//! A reference doesn't outlive its pool; it may outlive the lane that got it:
//!
//! ```compile_fail,E0505
//! let pool = pardz::Pool::<pardz::Buffer>::new();
//! let bytes = pool.create().unwrap().downgrade();
//! drop(pool);
//! println!("{}", bytes.len());
//! ```
//!
//! ```
//! let pool = pardz::Pool::<pardz::Buffer>::new();
//! let lane = pool.lane().unwrap();
//! let bytes = lane.create().unwrap().downgrade();
//! drop(lane);
//! println!("{}", bytes.len());
//! ```
//!
//! What an owned lane gives doesn't outlive that:
//!
//! ```compile_fail,E0505
//! let pool = std::sync::Arc::new(pardz::Pool::<String>::new());
//! let lane = pool.lane_owned().unwrap();
//! let text = lane.create().unwrap().downgrade();
//! drop(lane);
//! println!("{}", text.len());
//! ```
//!
//! ```compile_fail,E0505
//! let pool = std::sync::Arc::new(pardz::Pool::<String>::new());
//! let lane = pool.lane_owned().unwrap();
//! let text = lane.lane().create().unwrap().downgrade();
//! drop(lane);
//! println!("{}", text.len());
//! ```
//!
//! Its slice doesn't outlive the reference:
//!
//! ```compile_fail,E0505
//! # let pool = pardz::Pool::<pardz::Buffer>::open(pardz::Shape::default()).unwrap();
//! # let lane = pool.lane().unwrap();
//! let bytes = lane.create().unwrap().downgrade();
//! let slice = &bytes[..];
//! drop(bytes);
//! println!("{}", slice.len());
//! ```
//!
//! What a reference shows is read, and not written:
//!
//! ```compile_fail,E0596
//! # let pool = pardz::Pool::<String>::open(pardz::Shape::default()).unwrap();
//! # let lane = pool.lane().unwrap();
//! let filling = lane.create().unwrap();
//! let mut text = filling.downgrade();
//! text.push('x');
//! ```
//!
//! ```
//! # let pool = pardz::Pool::<String>::open(pardz::Shape::default()).unwrap();
//! # let lane = pool.lane().unwrap();
//! let mut filling = lane.create().unwrap();
//! filling.push('x');
//! let text = filling.downgrade();
//! assert_eq!(*text, "x");
//! ```
//!
//! A lane isn't shared between threads by reference; it may move:
//!
//! ```compile_fail,E0277
//! # let pool = pardz::Pool::<pardz::Buffer>::open(pardz::Shape::default()).unwrap();
//! let lane = pool.lane().unwrap();
//! std::thread::scope(|scope| {
//!     scope.spawn(|| lane.clear("1".parse().unwrap()));
//! });
//! ```
//!
//! ```
//! # let pool = pardz::Pool::<pardz::Buffer>::open(pardz::Shape::default()).unwrap();
//! let lane = pool.lane().unwrap();
//! std::thread::scope(|scope| {
//!     scope.spawn(move || lane.clear("1".parse().unwrap()));
//! });
//! ```
//!
//! A reference goes to another thread, and so does a filling:
//!
//! ```
//! let pool = pardz::Pool::<pardz::Buffer>::new();
//! let (filling, bytes) = (pool.create().unwrap(), pool.create().unwrap().downgrade());
//! std::thread::scope(|scope| {
//!     scope.spawn(move || filling.publish());
//!     scope.spawn(move || bytes.len());
//! });
//! ```
//!
//! A filling isn't used once it is published:
//!
//! ```compile_fail,E0382
//! # let pool = pardz::Pool::<pardz::Buffer>::open(pardz::Shape::default()).unwrap();
//! # let lane = pool.lane().unwrap();
//! let mut filling = lane.create().unwrap();
//! let key = filling.publish();
//! filling.append(b"late").unwrap();
//! ```
//!
//! Neither is room that it lent:
//!
//! ```compile_fail,E0505
//! # let pool = pardz::Pool::<pardz::Buffer>::open(pardz::Shape::default()).unwrap();
//! # let lane = pool.lane().unwrap();
//! let mut filling = lane.create().unwrap();
//! let room = filling.room(8).unwrap();
//! let key = filling.publish();
//! room[0] = 1;
//! ```
//!
//! ```
//! # let pool = pardz::Pool::<pardz::Buffer>::open(pardz::Shape::default()).unwrap();
//! # let lane = pool.lane().unwrap();
//! let mut filling = lane.create().unwrap();
//! let room = filling.room(8).unwrap();
//! room[0] = 1;
//! filling.append(b"late").unwrap();
//! let key = filling.publish();
//! ```
//!
//! A lane isn't used after the pool is closed:
//!
//! ```compile_fail,E0505
//! let pool = pardz::Pool::<pardz::Buffer>::open(pardz::Shape::default()).unwrap();
//! let lane = pool.lane().unwrap();
//! pool.close();
//! lane.clear("1".parse().unwrap());
//! ```
//!
//! ```
//! let pool = pardz::Pool::<pardz::Buffer>::open(pardz::Shape::default()).unwrap();
//! let lane = pool.lane().unwrap();
//! lane.clear("1".parse().unwrap());
//! drop(lane);
//! pool.close();
//! ```
//!
//! An owned lane keeps the pool from being closed:
//!
//! ```compile_fail,E0507
//! let pool = std::sync::Arc::new(pardz::Pool::<pardz::Buffer>::open(pardz::Shape::default()).unwrap());
//! let lane = pool.lane_owned().unwrap();
//! pool.close();
//! ```
//!
//! A lane of objects that can't be shared stays on its thread:
//!
//! ```compile_fail,E0277
//! let pool = pardz::Pool::<Option<std::cell::Cell<u8>>>::open(pardz::Shape::default()).unwrap();
//! let lane = pool.lane().unwrap();
//! std::thread::scope(|scope| {
//!     scope.spawn(move || lane.clear("1".parse().unwrap()));
//! });
//! ```
//!
//! ```
//! let pool = pardz::Pool::<Option<std::sync::atomic::AtomicU8>>::open(pardz::Shape::default()).unwrap();
//! let lane = pool.lane().unwrap();
//! std::thread::scope(|scope| {
//!     scope.spawn(move || lane.clear("1".parse().unwrap()));
//! });
//! ```
//!
//! An object isn't reached by its filling once it is published:
//!
//! ```compile_fail,E0505
//! let pool = pardz::Pool::<String>::open(pardz::Shape::default()).unwrap();
//! let lane = pool.lane().unwrap();
//! let mut filling = lane.create().unwrap();
//! let text: &mut String = &mut filling;
//! let key = filling.publish();
//! text.push('x');
//! ```
//!
//! A filling is of one type: it isn't taken for one of a shorter lifetime, which could then be written into it.
//!
//! ```compile_fail
//! fn shorter<'l, 'a>(filling: pardz::Filling<'l, Vec<&'static str>>) -> pardz::Filling<'l, Vec<&'a str>> {
//!     filling
//! }
//! ```
//!
//! ```
//! fn same<'l>(filling: pardz::Filling<'l, Vec<&'static str>>) -> pardz::Filling<'l, Vec<&'static str>> {
//!     filling
//! }
//! ```
//!
//! Neither is a lane, nor a pool:
//!
//! ```compile_fail
//! fn shorter<'l, 'a>(lane: pardz::Lane<'l, Vec<&'static str>>) -> pardz::Lane<'l, Vec<&'a str>> {
//!     lane
//! }
//! ```
//!
//! ```compile_fail
//! fn shorter<'l, 'a>(pool: &'l pardz::Pool<Vec<&'static str>>) -> &'l pardz::Pool<Vec<&'a str>> {
//!     pool
//! }
//! ```
//!
//! What is written into a filling outlives the pool:
//!
//! ```compile_fail,E0597
//! let pool = pardz::Pool::<Vec<&str>>::open(pardz::Shape::default()).unwrap();
//! let lane = pool.lane().unwrap();
//! let key = {
//!     let text = String::from("short");
//!     let mut filling = lane.create().unwrap();
//!     filling.push(&text);
//!     filling.publish()
//! };
//! println!("{}", lane.get(key).unwrap()[0]);
//! ```
//!
//! ```
//! let text = String::from("long");
//! let pool = pardz::Pool::<Vec<&str>>::open(pardz::Shape::default()).unwrap();
//! let lane = pool.lane().unwrap();
//! let key = {
//!     let mut filling = lane.create().unwrap();
//!     filling.push(&text);
//!     filling.publish()
//! };
//! println!("{}", lane.get(key).unwrap()[0]);
//! ```
//!
//! A pool is shared where its objects are `Send` and `Sync`, and not where one of the two is missing:
//!
//! ```
//! fn shared<T: Sync>() {}
//! shared::<pardz::Pool<Vec<std::sync::atomic::AtomicU8>>>();
//! ```
//!
//! ```compile_fail,E0277
//! fn shared<T: Sync>() {}
//! shared::<pardz::Pool<Vec<std::cell::Cell<u8>>>>(); // `Send` alone
//! ```
//!
//! ```compile_fail,E0277
//! fn shared<T: Sync>() {}
//! shared::<pardz::Pool<Option<std::sync::MutexGuard<'static, u8>>>>(); // `Sync` alone
//! ```
//!
//! It crosses threads likewise:
//!
//! ```
//! fn crosses<T: Send>() {}
//! crosses::<pardz::Pool<Vec<std::sync::atomic::AtomicU8>>>();
//! crosses::<pardz::Lane<'static, Vec<std::sync::atomic::AtomicU8>>>();
//! ```
//!
//! ```compile_fail,E0277
//! fn crosses<T: Send>() {}
//! crosses::<pardz::Pool<Option<std::sync::MutexGuard<'static, u8>>>>();
//! ```
//!
//! A pool of objects that are `Send` alone isn't sent, as others could have a reference there:
//!
//! ```compile_fail,E0277
//! let pool = pardz::Pool::<Option<std::cell::Cell<u8>>>::open(pardz::Shape::default()).unwrap();
//! std::thread::spawn(move || pool.close());
//! ```
//!
//! ```
//! let pool = pardz::Pool::<Option<std::sync::atomic::AtomicU8>>::open(pardz::Shape::default()).unwrap();
//! std::thread::spawn(move || pool.close());
//! ```
//!
//! Owned handles go to other threads where their objects are `Send` and `Sync`, and not where one of the two is missing:
//!
//! ```
//! fn crosses<T: Send + Sync>() {}
//! crosses::<pardz::OwnedRef<Vec<std::sync::atomic::AtomicU8>>>();
//! crosses::<pardz::OwnedFilling<Vec<std::sync::atomic::AtomicU8>>>();
//! ```
//!
//! ```compile_fail,E0277
//! fn crosses<T: Send>() {}
//! crosses::<pardz::OwnedRef<Option<std::sync::MutexGuard<'static, u8>>>>(); // `Sync` alone
//! ```
//!
//! ```compile_fail,E0277
//! fn crosses<T: Send>() {}
//! crosses::<pardz::OwnedRef<Option<std::cell::Cell<u8>>>>(); // `Send` alone
//! ```
//!
//! ```compile_fail,E0277
//! fn crosses<T: Send>() {}
//! crosses::<pardz::OwnedFilling<Option<std::sync::MutexGuard<'static, u8>>>>(); // `Sync` alone
//! ```
//!
//! ```compile_fail,E0277
//! fn crosses<T: Send>() {}
//! crosses::<pardz::OwnedFilling<Option<std::cell::Cell<u8>>>>(); // `Send` alone
//! ```
//!
//! ```compile_fail,E0277
//! fn shared<T: Sync>() {}
//! shared::<pardz::OwnedRef<Option<std::cell::Cell<u8>>>>();
//! ```
//!
//! ```compile_fail,E0277
//! fn shared<T: Sync>() {}
//! shared::<pardz::OwnedFilling<Option<std::sync::MutexGuard<'static, u8>>>>();
//! ```
//!
//! Owned handles are of one type, as fillings are:
//!
//! ```compile_fail
//! fn shorter<'a>(filling: pardz::OwnedFilling<Vec<&'static str>>) -> pardz::OwnedFilling<Vec<&'a str>> {
//!     filling
//! }
//! ```
//!
//! Nothing of a pool goes where its objects may not:
//!
//! ```compile_fail,E0277
//! fn crosses<T: Send>() {}
//! crosses::<pardz::Ref<'static, Option<std::cell::Cell<u8>>>>();
//! ```
//!
//! ```compile_fail,E0277
//! fn crosses<T: Send>() {}
//! crosses::<pardz::Filling<'static, Option<std::cell::Cell<u8>>>>();
//! ```
//!
//! ```compile_fail,E0277
//! fn crosses<T: Send>() {}
//! crosses::<pardz::Ref<'static, Option<std::sync::MutexGuard<'static, u8>>>>();
//! ```
//!
//! ```compile_fail,E0277
//! fn crosses<T: Send>() {}
//! crosses::<pardz::Filling<'static, Option<std::sync::MutexGuard<'static, u8>>>>();
//! ```
//!
//! ```compile_fail,E0277
//! fn shared<T: Sync>() {}
//! shared::<pardz::Ref<'static, Option<std::cell::Cell<u8>>>>();
//! ```
//!
//! ```
//! fn crosses<T: Send + Sync>() {}
//! crosses::<pardz::Ref<'static, String>>();
//! crosses::<pardz::Filling<'static, String>>();
//! ```
//!
//! An object of a reference isn't written:
//!
//! ```compile_fail,E0596
//! let pool = pardz::Pool::<String>::open(pardz::Shape::default()).unwrap();
//! let lane = pool.lane().unwrap();
//! let text = lane.create().unwrap().downgrade();
//! text.push('x');
//! ```
