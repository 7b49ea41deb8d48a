//! The pictures in `docs/pictures` are those that are drawn now.

use picture::Picture;

const PICTURES: [(&str, u16); 3] = [("ring_and_chain", 1000), ("late_sender", 30), ("philosophers", 1000)];

fn root(path: &str) -> String {
    format!("{}/../../{path}", env!("CARGO_MANIFEST_DIR"))
}

fn read(path: &str) -> String {
    std::fs::read_to_string(root(path)).unwrap_or_else(|error| panic!("{path}: {error}"))
}

#[test]
fn the_pictures_are_what_is_drawn_now() {
    for (name, steps) in PICTURES {
        let file = read(&format!("examples/{name}.txt"));
        let drawn = Picture::of_file(&format!("{name}.txt"), file.as_bytes(), steps).expect("it loads").svg();
        let path = format!("docs/pictures/{name}.svg");
        let again = format!("./run draw examples/{name}.txt {steps} --svg >{path}");
        assert!(read(&path) == drawn, "{path} is another picture; {again} draws it anew");
    }
}

#[test]
fn the_page_shows_every_picture_and_how_it_is_drawn() {
    let page = read("docs/PICTURES.md");
    for (name, steps) in PICTURES {
        for words in
            [format!("(pictures/{name}.svg)"), format!("./run draw examples/{name}.txt {steps} --svg")]
        {
            assert!(page.contains(&words), "docs/PICTURES.md does not have {words}");
        }
    }
    let mut drawn: Vec<String> = std::fs::read_dir(root("docs/pictures"))
        .expect("there is such a folder")
        .map(|entry| entry.expect("it can be read").file_name().to_string_lossy().into_owned())
        .collect();
    drawn.sort();
    let mut known = PICTURES.map(|(name, _)| format!("{name}.svg"));
    known.sort();
    assert_eq!(drawn, known);
}
