module Hello

import IO;

// Prints two lines. Each statement costs three units: itself, the call and the text.
void main(list[str] args) {
    println("Hello from rascal,");
    println("which does what its rules say: \"no more\", and no less.");
}
