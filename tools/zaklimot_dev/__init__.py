"""What only developers of the project need: no release has it. It stands on the commands of the
package `zaklimot`."""
