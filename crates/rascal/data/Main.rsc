module Main import IO;
void main(list[str] args) { println("hi"); }
