// Measures how long a Java validator takes to compile the schemas of a folder. compare/run bench starts it:
//
//   java [-cp JARS] compare/bench/Peers.java jdk|xerces FOLDER MODEL...
//
// For each MODEL the folder has MODEL.restricting.xsd and MODEL.apart.xsd: the same two content models, in the first the
// derived type restricts the base type. One line each: model, nanoseconds for the first, for the second (the least of many),
// and whether the first is accepted or the error's code. Exit status 3: there is no such validator.

import java.io.ByteArrayInputStream;
import java.io.IOException;
import java.nio.file.Files;
import java.nio.file.Path;
import javax.xml.XMLConstants;
import javax.xml.transform.stream.StreamSource;
import javax.xml.validation.SchemaFactory;
import javax.xml.validation.SchemaFactoryConfigurationError;
import org.xml.sax.SAXException;

public class Peers {
    static final String FULL_CHECKING = "http://apache.org/xml/features/validation/schema-full-checking";
    static final String XERCES = "org.apache.xerces.jaxp.validation.XMLSchemaFactory";
    // So long is each model compiled before and while it is measured.
    static final long WARMING = 1_000_000_000L;
    static final long MEASURING = 1_000_000_000L;

    public static void main(String[] args) throws IOException, SAXException {
        SchemaFactory factory = null;
        try {
            factory = args[0].equals("jdk")
                ? SchemaFactory.newDefaultInstance()
                : SchemaFactory.newInstance(XMLConstants.W3C_XML_SCHEMA_NS_URI, XERCES, null);
        } catch (IllegalArgumentException | SchemaFactoryConfigurationError e) {
            System.exit(3);
        }
        factory.setFeature(FULL_CHECKING, true);
        for (int i = 2; i < args.length; i++) {
            byte[] restricting = Files.readAllBytes(Path.of(args[1], args[i] + ".restricting.xsd"));
            byte[] apart = Files.readAllBytes(Path.of(args[1], args[i] + ".apart.xsd"));
            String answer = compile(factory, restricting);
            if (!compile(factory, apart).equals("accepted")) {
                throw new IllegalStateException(args[i] + " is no schema: " + compile(factory, apart));
            }
            least(factory, restricting, apart, WARMING);
            long[] times = least(factory, restricting, apart, MEASURING);
            System.out.printf("%s\t%d\t%d\t%s%n", args[i], times[0], times[1], answer);
        }
    }

    // The least time for each of the two, in turn, until the time is up.
    static long[] least(SchemaFactory factory, byte[] first, byte[] second, long howLong) {
        long[] least = {Long.MAX_VALUE, Long.MAX_VALUE};
        long end = System.nanoTime() + howLong;
        while (System.nanoTime() < end) {
            long start = System.nanoTime();
            compile(factory, first);
            long middle = System.nanoTime();
            compile(factory, second);
            least[0] = Math.min(least[0], middle - start);
            least[1] = Math.min(least[1], System.nanoTime() - middle);
        }
        return least;
    }

    // 'accepted', or the code that the error's message starts with.
    static String compile(SchemaFactory factory, byte[] schema) {
        try {
            factory.newSchema(new StreamSource(new ByteArrayInputStream(schema)));
            return "accepted";
        } catch (SAXException e) {
            return e.getMessage().split(":")[0];
        }
    }
}
