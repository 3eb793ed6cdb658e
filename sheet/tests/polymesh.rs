//! The import of polyMesh folders, against geometry known by hand.

mod common;

use common::{listed, own, printed, told};
use sheet::{polymesh, Fields, Sheet};
use std::fs;
use std::path::{Path, PathBuf};
use std::sync::atomic::{AtomicUsize, Ordering};

/// A folder beside the tests.
fn folder(name: &str) -> PathBuf {
    own("polymesh").join(name)
}

/// What is printed of a folder.
fn imported(name: &str) -> String {
    let (output, error, status) = told(&["--polymesh", folder(name).to_str().unwrap()], "");
    assert_eq!((error.as_str(), status), ("", 0));
    output
}

/// A copy of the two cubes in which one file is changed, in a folder of its own.
struct Copy(PathBuf);

impl Copy {
    fn new(name: &str) -> Self {
        static MADE: AtomicUsize = AtomicUsize::new(0);
        let made = MADE.fetch_add(1, Ordering::Relaxed);
        let unique = format!("juvandeer-{name}-{}-{made}", std::process::id());
        let path = std::env::temp_dir().join(unique);
        fs::create_dir_all(&path).unwrap();
        for file in ["points", "faces", "owner", "neighbour", "boundary"] {
            fs::copy(folder("two-cubes").join(file), path.join(file)).unwrap();
        }
        Self(path)
    }

    fn change(&self, file: &str, old: &str, new: &str) -> &Self {
        let text = fs::read_to_string(self.0.join(file)).unwrap();
        assert_eq!(text.matches(old).count(), 1, "{old}");
        fs::write(self.0.join(file), text.replace(old, new)).unwrap();
        self
    }

    /// The reason that is told at a file, or at a file and a line.
    fn told(&self, place: &str, reason: &str) {
        let path = if place.is_empty() {
            self.0.clone()
        } else {
            self.0.join(place)
        };
        let expected = format!("{}: {reason}", path.display());
        assert_eq!(polymesh::import(&self.0).unwrap_err(), expected);
        let (output, error, status) = told(&["--polymesh", self.0.to_str().unwrap()], "");
        assert_eq!(
            (output.as_str(), error.trim_end(), status),
            ("", expected.as_str(), 4)
        );
    }
}

impl Drop for Copy {
    fn drop(&mut self) {
        let _ = fs::remove_dir_all(&self.0);
    }
}

/// A change of one file of the two cubes, and what is then told.
fn wrong(name: &str, file: &str, old: &str, new: &str, place: &str, reason: &str) {
    let copy = Copy::new(name);
    copy.change(file, old, new).told(place, reason);
}

#[test]
fn a_unit_cube_has_its_geometry() {
    let sheet = Sheet::read(imported("cube").as_bytes()).unwrap();
    let mesh = &sheet.mesh;
    assert_eq!((mesh.cell_count(), mesh.face_count()), (1, 6));
    let cell = mesh.cell(0).unwrap();
    assert_eq!((cell.center, cell.volume), ([0.5; 3], 1.0));
    let faces = [
        ([0.0, 0.5, 0.5], [-1.0, 0.0, 0.0]),
        ([1.0, 0.5, 0.5], [1.0, 0.0, 0.0]),
        ([0.5, 0.0, 0.5], [0.0, -1.0, 0.0]),
        ([0.5, 1.0, 0.5], [0.0, 1.0, 0.0]),
        ([0.5, 0.5, 0.0], [0.0, 0.0, -1.0]),
        ([0.5, 0.5, 1.0], [0.0, 0.0, 1.0]),
    ];
    for (at, (center, normal)) in faces.into_iter().enumerate() {
        let face = mesh.face(at).unwrap();
        assert_eq!((face.owner, face.neighbour, face.center), (0, None, center));
        assert_eq!((face.area_vector, face.normal), (normal, normal));
    }
}

#[test]
fn two_cubes_are_joined_and_linked() {
    let sheet = Sheet::read(imported("two-cubes").as_bytes()).unwrap();
    let mesh = &sheet.mesh;
    assert_eq!((mesh.cell_count(), mesh.face_count()), (2, 11));
    for (at, x) in [0.5, 1.5].into_iter().enumerate() {
        let cell = mesh.cell(at).unwrap();
        assert_eq!((cell.center, cell.volume), ([x, 0.5, 0.5], 1.0));
    }
    let face = mesh.face(0).unwrap();
    assert_eq!((face.owner, face.neighbour), (0, Some(1)));
    assert_eq!(
        (face.center, face.area_vector),
        ([1.0, 0.5, 0.5], [1.0, 0.0, 0.0])
    );
    assert_eq!(
        [1, 2, 3].map(|face| sheet.conditions.peer(face)),
        [Some(2), Some(1), None]
    );
    let distances = mesh.face_distances(&sheet.conditions).unwrap();
    assert_eq!(distances.own.values(), [0.5; 11]);
    let other = [0.5, 0.5, 0.5, 0.0, 0.0, 0.0, 0.0, 0.0, 0.0, 0.0, 0.0];
    assert_eq!(distances.other.values(), other);
    let text = imported("two-cubes");
    assert!(text.contains("\n1 2  2 0 0\n"));
    assert!(text.contains("\n3-10  zero-gradient\n"));
    assert!(matches!(sheet.fields, Fields::Step(_)));
}

/// No flux is other than 0. Of the linked faces 1 and 2 the higher has the lower's negated, a zero too.
#[test]
fn an_imported_sheet_runs_as_it_stands() {
    assert_eq!(listed(&printed(&imported("cube")), "face flux"), [0; 6]);
    let mut fluxes = listed(&printed(&imported("two-cubes")), "face flux");
    let linked: Vec<f64> = fluxes.drain(1..3).map(f64::from_bits).collect();
    assert_eq!(linked, [0.0; 2]);
    assert_eq!(linked[1].to_bits(), (-linked[0]).to_bits());
    assert_eq!(fluxes, [0; 9]);
}

#[test]
fn patches_are_named_in_comments() {
    let text = imported("cube");
    for line in [
        "# patch `inlet`, type `patch`\n0  zero-gradient\n",
        "# patch `outlet`, type `patch`\n1  zero-gradient\n",
        "# patch `front and back`, type `empty`, without faces\n",
        "# patch `walls`, type `wall`\n2-5  zero-gradient\n",
    ] {
        assert!(text.contains(line), "{line}");
    }
}

/// Two boxes side by side, with the numbers of the two cubes' files: cell 0 has six faces, cell 1 five and, in
/// place of its upper one, so many strips.
fn strips(name: &str, count: usize) -> Copy {
    let copy = Copy::new(name);
    let mut points: Vec<[usize; 3]> = Vec::new();
    let mut at = |x: usize, y: usize, z: usize| {
        let found = points.iter().position(|&point| point == [x, y, z]);
        found.unwrap_or_else(|| {
            points.push([x, y, z]);
            points.len() - 1
        })
    };
    let end = count + 1;
    // the face between them, then those that look left, right, forwards, backwards, down and up
    let mut faces = vec![
        (0, [at(1, 0, 0), at(1, 1, 0), at(1, 1, 1), at(1, 0, 1)]),
        (0, [at(0, 0, 0), at(0, 0, 1), at(0, 1, 1), at(0, 1, 0)]),
        (
            1,
            [at(end, 0, 0), at(end, 1, 0), at(end, 1, 1), at(end, 0, 1)],
        ),
    ];
    for (cell, from, to) in [(0, 0, 1), (1, 1, end)] {
        faces.push((
            cell,
            [at(from, 0, 0), at(to, 0, 0), at(to, 0, 1), at(from, 0, 1)],
        ));
        faces.push((
            cell,
            [at(from, 1, 0), at(from, 1, 1), at(to, 1, 1), at(to, 1, 0)],
        ));
        faces.push((
            cell,
            [at(from, 0, 0), at(from, 1, 0), at(to, 1, 0), at(to, 0, 0)],
        ));
    }
    for x in 0..end {
        let cell = x.min(1);
        faces.push((
            cell,
            [at(x, 0, 1), at(x + 1, 0, 1), at(x + 1, 1, 1), at(x, 1, 1)],
        ));
    }
    let list = |items: Vec<String>| format!("{}\n(\n{}\n)\n", items.len(), items.join("\n"));
    let points = points.iter().map(|[x, y, z]| format!("({x} {y} {z})"));
    let corners = faces
        .iter()
        .map(|(_, [a, b, c, d])| format!("4({a} {b} {c} {d})"));
    let owners = faces.iter().map(|(cell, _)| cell.to_string());
    let wall = format!(
        "1\n(\nwalls\n{{\ntype wall;\nnFaces {};\nstartFace 1;\n}}\n)\n",
        faces.len() - 1
    );
    for (file, text) in [
        ("points", list(points.collect())),
        ("faces", list(corners.collect())),
        ("owner", list(owners.collect())),
        ("neighbour", "1(1)\n".to_string()),
        ("boundary", wall),
    ] {
        fs::write(copy.0.join(file), text).unwrap();
    }
    copy
}

#[test]
fn a_cell_with_too_many_faces_is_named() {
    strips("crowded", 22).told(
        "",
        "cell 1 has 27 faces, and at most 26 are taken: split it, or merge its faces",
    );
}

#[test]
fn as_many_faces_as_a_cell_may_have() {
    let copy = strips("full", 21);
    let imported = polymesh::import(&copy.0).unwrap();
    let sheet = Sheet::read(imported.as_bytes()).unwrap();
    assert_eq!((sheet.mesh.cell_count(), sheet.mesh.face_count()), (2, 31));
    let volumes = [0, 1].map(|cell| sheet.mesh.cell(cell).unwrap().volume);
    assert!((volumes[0] - 1.0).abs() < 1e-12 && (volumes[1] - 21.0).abs() < 1e-12);
    printed(&imported);
}

#[test]
fn binary_files_are_refused() {
    wrong("binary", "points", "format      ascii", "format      binary", "points:7",
        "the format is `binary`, and only `ascii` is read: write the mesh anew with `writeFormat ascii`, as by foamFormatConvert");
    let copy = Copy::new("bytes");
    let mut bytes = b"FoamFile\n{\nformat binary;\n}\n3\n(".to_vec();
    bytes.extend([0, 255, 254, b'"', b'/', b'*', 7]);
    fs::write(copy.0.join("faces"), bytes).unwrap();
    copy.told("faces:3", "the format is `binary`, and only `ascii` is read: write the mesh anew with `writeFormat ascii`, as by foamFormatConvert");
    wrong(
        "compact",
        "faces",
        "class       faceList",
        "class       faceCompactList",
        "faces:5",
        "the class is `faceCompactList`, and only `faceList` is read",
    );
}

#[test]
fn a_missing_file_is_named() {
    let copy = Copy::new("missing");
    fs::remove_file(copy.0.join("owner")).unwrap();
    copy.told(
        "owner",
        "cannot be read: No such file or directory (os error 2)",
    );
    fs::write(copy.0.join("owner.gz"), "").unwrap();
    copy.told(
        "owner",
        "cannot be read: No such file or directory (os error 2) (unpack owner.gz first)",
    );
    let inner = copy.0.join("constant/polyMesh");
    fs::create_dir_all(&inner).unwrap();
    fs::rename(copy.0.join("points"), inner.join("points")).unwrap();
    let hint = format!(
        "cannot be read: No such file or directory (os error 2) (the mesh of a case is in {})",
        inner.display()
    );
    copy.told("points", &hint);
    assert!(polymesh::import(Path::new("no such folder")).is_err());
}

#[test]
fn a_bad_line_of_points_is_named() {
    wrong(
        "word",
        "points",
        "(1 1 1)",
        "(1 one 1)",
        "points:26",
        "expected a finite number in a point, found `one`",
    );
    wrong(
        "nan",
        "points",
        "(1 1 1)",
        "(1 nan 1)",
        "points:26",
        "expected a finite number in a point, found `nan`",
    );
    wrong(
        "flat",
        "points",
        "(1 1 1)",
        "(1 1)",
        "points:26",
        "expected a point, as `(x y z)`, found `)`",
    );
    wrong(
        "long",
        "points",
        "(1 1 1)",
        "(1 1 1 1)",
        "points:26",
        "expected `)` after the three numbers of a point, found `1`",
    );
    wrong(
        "fewer",
        "points",
        "(1 1 1)",
        "",
        "points:15",
        "the list is said to have 12 points and has 11",
    );
    wrong(
        "open",
        "points",
        "1.)\n)",
        "1.)\n",
        "points:27",
        "the file ends within its list of points: expected `)`",
    );
    wrong(
        "more",
        "points",
        "1.)\n)",
        "1.)\n) 7",
        "points:28",
        "expected nothing after the list of points, found `7`",
    );
    wrong(
        "count",
        "points",
        "\n12\n",
        "\ntwelve\n",
        "points:14",
        "expected the number of points, found `twelve`",
    );
    wrong(
        "large",
        "points",
        "\n12\n",
        "\n4000000000\n",
        "points:14",
        "the list has `4000000000` points, and at most 65535 are taken",
    );
    wrong(
        "comment",
        "points",
        "// a comment behind a point",
        "/* a comment",
        "points:23",
        "a comment `/*` has no end `*/`",
    );
    wrong(
        "header",
        "points",
        "    object      points;\n}",
        "    object      points",
        "points:10",
        "the entry `object` has no end `;`",
    );
}

#[test]
fn a_bad_line_of_faces_is_named() {
    wrong(
        "corner",
        "faces",
        "4(0 6 9 3)",
        "4(0 6 9 12)",
        "faces:12",
        "face 1 names point 12, and there are 12 points, from 0",
    );
    wrong(
        "three",
        "faces",
        "4(0 6 9 3)",
        "3(0 6 9 3)",
        "faces:12",
        "the list is said to have 3 points and has 4",
    );
    wrong(
        "minus",
        "faces",
        "4(0 6 9 3)",
        "4(0 6 -9 3)",
        "faces:12",
        "expected the number of a point, found `-9`",
    );
    wrong(
        "two",
        "faces",
        "4(0 6 9 3)",
        "2(0 6)",
        "faces:12",
        "face 1 has 2 points: it needs two in 2D, and three or more in 3D",
    );
    wrong(
        "area",
        "faces",
        "4(0 6 9 3)",
        "4(0 0 0 0)",
        "faces:12",
        "face 1 has an area that is zero or not finite",
    );
    wrong(
        "turned",
        "faces",
        "4(1 4 10 7)",
        "4(7 10 4 1)",
        "faces:11",
        "the points of face 0 turn the wrong way: turned round, it would close cell 0",
    );
    wrong(
        "outer",
        "faces",
        "4(2 5 11 8)",
        "4(8 11 5 2)",
        "faces:13",
        "the points of face 2 turn the wrong way: turned round, it would close cell 1",
    );
    wrong(
        "open",
        "faces",
        "4(2 5 11 8)",
        "3(2 5 11)",
        "faces",
        "the faces of cell 1 do not close it: one is missing, or their points turn the wrong way",
    );
}

#[test]
fn only_numbers_are_repeated() {
    wrong(
        "repeated",
        "faces",
        "\n11\n(\n",
        "\n65535{4(0 1 2 3)}\n(\n",
        "faces:9",
        "expected a list of faces, as `N ( ... )`, found `{`",
    );
    wrong(
        "without",
        "owner",
        "11(0 0 1 0 1 0 1 0 1 0 1)",
        "{0}",
        "owner:2",
        "expected a list of owners, as `N ( ... )`, found `{`",
    );
    wrong(
        "both",
        "owner",
        "11(0 0 1 0 1 0 1 0 1 0 1)",
        "11{0 1}",
        "owner:2",
        "expected `}` after the one number of a list `N{x}`, found `1`",
    );
}

#[test]
fn bad_owners_and_neighbours_are_named() {
    wrong(
        "short",
        "owner",
        "11(0 0 1 0 1 0 1 0 1 0 1)",
        "10(0 0 1 0 1 0 1 0 1 0)",
        "owner",
        "10 owners for 11 faces: expected one for each",
    );
    wrong(
        "gap",
        "owner",
        "11(0 0 1 0 1 0 1 0 1 0 1)",
        "11(0 0 1 0 1 0 1 0 1 0 7)",
        "",
        "no face names cell 2, though one names a higher cell",
    );
    wrong(
        "self",
        "neighbour",
        "(\n1\n)",
        "(\n0\n)",
        "owner:2",
        "face 0 has its owner as neighbour",
    );
    wrong(
        "none",
        "neighbour",
        "(\n1\n)",
        "(\n-1\n)",
        "neighbour:9",
        "expected the number of a cell, found `-1`",
    );
    wrong(
        "many",
        "neighbour",
        "1\n(\n1\n)",
        "12{1}",
        "neighbour",
        "12 neighbours for 11 faces: expected no more than that",
    );
    wrong(
        "huge",
        "neighbour",
        "1\n(\n1\n)",
        "4000000000{1}",
        "neighbour:7",
        "the list has `4000000000` neighbours, and at most 65535 are taken",
    );
}

#[test]
fn bad_patches_are_named() {
    let wall = "        nFaces          8;\n        startFace       3;";
    wrong(
        "type",
        "boundary",
        "type            wall;\n",
        "",
        "boundary:30",
        "the patch `walls` has no `type`",
    );
    wrong(
        "faces",
        "boundary",
        "nFaces          8",
        "nFaces          eight",
        "boundary:33",
        "expected a whole number to 65534 as `nFaces`, found `eight`",
    );
    wrong(
        "start",
        "boundary",
        wall,
        "nFaces 8;\nstartFace 4;",
        "boundary:30",
        "the patch `walls` has faces 4 to 11: expected it to begin at face 3, and faces end at 10",
    );
    wrong(
        "overlap",
        "boundary",
        wall,
        "nFaces 9;\nstartFace 2;",
        "boundary:30",
        "the patch `walls` has faces 2 to 10: expected it to begin at face 3, and faces end at 10",
    );
    wrong(
        "end",
        "boundary",
        wall,
        "nFaces 7;\nstartFace 3;",
        "boundary",
        "face 10 has one cell and belongs to no patch",
    );
    wrong(
        "list",
        "boundary",
        "\n3\n(",
        "\n4\n(",
        "boundary:10",
        "the list is said to have 4 patches and has 3",
    );
    wrong(
        "brace",
        "boundary",
        "    walls\n    {",
        "    walls\n",
        "boundary:32",
        "expected `{` after the patch `walls`, found `type`",
    );
    wrong(
        "words",
        "boundary",
        "type            wall;",
        "type            wall of stone;",
        "boundary:32",
        "expected one word after `type`",
    );
}

#[test]
fn bad_cyclic_patches_are_named() {
    wrong(
        "alone",
        "boundary",
        "        neighbourPatch  right;\n",
        "",
        "boundary:11",
        "the cyclic patch `left` has no `neighbourPatch`",
    );
    wrong(
        "nobody",
        "boundary",
        "neighbourPatch  right",
        "neighbourPatch  wrong",
        "boundary:11",
        "the cyclic patch `left` names `wrong`, and there is no such patch",
    );
    wrong(
        "itself",
        "boundary",
        "neighbourPatch  right",
        "neighbourPatch  left ",
        "boundary:11",
        "the cyclic patch `left` names `left`, which is no cyclic patch that names it back",
    );
    wrong(
        "wall",
        "boundary",
        "neighbourPatch  right",
        "neighbourPatch  walls",
        "boundary:11",
        "the cyclic patch `left` names `walls`, which is no cyclic patch that names it back",
    );
    wrong(
        "back",
        "boundary",
        "neighbourPatch  left",
        "neighbourPatch  walls",
        "boundary:11",
        "the cyclic patch `left` names `right`, which is no cyclic patch that names it back",
    );
    wrong(
        "rotational",
        "boundary",
        "transform       translational",
        "transform       rotational",
        "boundary:18",
        "the cyclic patch `left` is rotational, and a link of a sheet is a translation",
    );
    wrong("ami", "boundary", "type            wall", "type            cyclicAMI", "boundary:30", "the patch `walls` is of type `cyclicAMI`: of the patches that join others only `cyclic` can be imported");
    wrong(
        "skew",
        "points",
        "(2 0 0)",
        "(2.1 0 0)",
        "boundary:11",
        "no translation brings face 1 to face 2: their areas are not opposite",
    );
    let copy = Copy::new("unequal");
    copy.change(
        "boundary",
        "        nFaces          8;\n        startFace       3;",
        "        nFaces          7;\n        startFace       4;",
    );
    copy.change(
        "boundary",
        "        nFaces          1;\n        startFace       2;",
        "        nFaces          2;\n        startFace       2;",
    );
    copy.told(
        "boundary:11",
        "the cyclic patch `left` has 1 faces and `right` has 2: expected as many",
    );
}
