package jcompat;

import static org.junit.Assert.assertEquals;
import static org.junit.Assert.assertNull;
import static org.junit.Assert.fail;

import java.util.Arrays;
import java.util.LinkedHashMap;
import java.util.Map;

import org.junit.Test;

public class JsonTest {
    @Test
    public void readsWhatItWrites() {
        Map<String, Object> map = new LinkedHashMap<>();
        map.put("a", Arrays.asList(1L, -2L, true, false, null, "\"\\\n\u0001\u00e4<"));
        map.put("", new LinkedHashMap<>());
        map.put("b", Arrays.asList());
        String text = Json.write(map);
        assertEquals("{\"a\":[1,-2,true,false,null,\"\\\"\\\\\\u000a\\u0001\u00e4<\"],\"\":{},\"b\":[]}", text);
        assertEquals(map, Json.read(text));
        assertEquals("/\t", Json.read(" \"\\/\\t\" "));
    }

    @Test
    public void refusesWhatIsNone() {
        for (String text : new String[] {"", "{", "[1,]", "{\"a\"}", "\"a", "\"\\u12", "\"\\q\"", "1 2", "-", "nul", "[".repeat(100), "1.5"}) {
            try {
                fail(text + " is read as " + Json.read(text));
            } catch (IllegalArgumentException expected) {
                continue;
            }
        }
    }

    @Test
    public void aDocumentOfANewerFormIsRefused() throws Exception {
        assertNull(DocumentText.of("{\"format\":\"other\"}"));
        assertNull(DocumentText.of("no JSON"));
        try {
            DocumentText.of("{\"format\":\"jcompat check-jars\",\"version\":2}");
            fail();
        } catch (Stop stop) {
            assertEquals(Stop.NOT_RUN, stop.status);
        }
    }
}
