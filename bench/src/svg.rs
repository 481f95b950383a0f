//! An SVG picture, drawn element by element.

use std::fmt::{Arguments, Write};

const STYLE: &str = "text { font: 12px sans-serif; fill: #222 } \
                     .title { font-weight: bold; font-size: 13px } \
                     .note { fill: #555 } \
                     .tick { text-anchor: middle }";

#[derive(Default)]
pub struct Picture {
    elements: String,
}

impl Picture {
    /// A text in one of the classes `title`, `note`, `tick` and none.
    pub fn text(&mut self, x: f64, y: f64, class: &str, text: &str) {
        self.add(format_args!("<text x=\"{x:.1}\" y=\"{y:.1}\" class=\"{class}\">{text}</text>"));
    }

    /// A vertical line.
    pub fn line(&mut self, x: f64, top: f64, bottom: f64, colour: &str) {
        self.add(format_args!("<path d=\"M{x:.1} {top:.1}V{bottom:.1}\" stroke=\"{colour}\"/>"));
    }

    pub fn rectangle(&mut self, [x, y, width, height]: [f64; 4], colour: &str) {
        self.add(format_args!(
            "<rect x=\"{x:.1}\" y=\"{y:.1}\" width=\"{width:.1}\" height=\"{height:.1}\" fill=\"{colour}\"/>"
        ));
    }

    pub fn dot(&mut self, x: f64, y: f64) {
        self.add(format_args!("<circle cx=\"{x:.1}\" cy=\"{y:.1}\" r=\"2.2\" fill=\"#222\"/>"));
    }

    fn add(&mut self, element: Arguments) {
        writeln!(self.elements, "{element}").expect("a string takes all");
    }

    /// The file, on a white ground.
    pub fn file(&self, width: f64, height: f64) -> String {
        format!(
            "<svg xmlns=\"http://www.w3.org/2000/svg\" width=\"{width}\" height=\"{height}\">\n\
             <style>{STYLE}</style>\n\
             <rect width=\"100%\" height=\"100%\" fill=\"#fff\"/>\n\
             {}</svg>\n",
            self.elements
        )
    }
}
