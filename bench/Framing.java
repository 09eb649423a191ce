import com.fasterxml.jackson.databind.ObjectMapper;
import com.github.jsonldjava.core.JsonLdOptions;
import com.github.jsonldjava.core.JsonLdProcessor;
import com.github.jsonldjava.utils.JsonUtils;
import java.nio.charset.StandardCharsets;
import java.nio.file.Files;
import java.nio.file.Path;

/** Frames a file of N-Quads by jsonld-java, for bench/run. The words are the frame's file and the data's. */
public final class Framing {
    private Framing() {}

    public static void main(String[] words) throws Exception {
        Object frame = new ObjectMapper().readValue(Files.readString(Path.of(words[0]), StandardCharsets.UTF_8), Object.class);
        String data = Files.readString(Path.of(words[1]), StandardCharsets.UTF_8);
        JsonLdOptions options = new JsonLdOptions();
        options.setProcessingMode(JsonLdOptions.JSON_LD_1_1);
        options.format = "application/n-quads";
        Object expanded = JsonLdProcessor.fromRDF(data, options);
        System.out.println(JsonUtils.toString(JsonLdProcessor.frame(expanded, frame, options)));
    }
}
