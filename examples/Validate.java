import java.nio.file.Path;

/** Prints what einv finds in an invoice, and ends with its status. */
public class Validate {
    public static void main(String[] words) throws Exception {
        Process einv = new ProcessBuilder("einv", "validate", "--json", Path.of(words[0]).toString())
                .redirectError(ProcessBuilder.Redirect.INHERIT)
                .start();
        String answer = new String(einv.getInputStream().readAllBytes(), java.nio.charset.StandardCharsets.UTF_8);
        int status = einv.waitFor();
        System.out.print(status <= 1 ? answer : "");
        System.exit(status);
    }
}
