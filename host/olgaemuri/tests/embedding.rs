//! The programs that the README shows to those who embed the engine: they end without a failed assertion.

mod embed {
    include!("../examples/embed.rs");

    #[test]
    fn it_runs_to_its_end() {
        main();
    }
}

mod engine {
    include!("../examples/engine.rs");

    #[test]
    fn it_runs_to_its_end() {
        main();
    }
}
