// javac --release 8 package-info.java
@Deprecated
package shop;
