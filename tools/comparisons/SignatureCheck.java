// Whether BouncyCastle takes a signature: a line for each key, message and signature in digits.
import java.io.BufferedReader;
import java.io.IOException;
import java.io.InputStreamReader;
import java.util.HexFormat;
import org.bouncycastle.pqc.crypto.MessageSigner;
import org.bouncycastle.pqc.crypto.lms.HSSPublicKeyParameters;
import org.bouncycastle.pqc.crypto.lms.HSSSigner;
import org.bouncycastle.pqc.crypto.lms.LMSPublicKeyParameters;
import org.bouncycastle.pqc.crypto.lms.LMSSigner;

public class SignatureCheck {
    static final int LEVELS_BYTES = 4;
    static final int KEY_BYTES = 56;

    public static void main(String[] words) throws IOException {
        BufferedReader lines = new BufferedReader(new InputStreamReader(System.in));
        for (String line = lines.readLine(); line != null; line = lines.readLine()) {
            String[] parts = line.split(" ", -1);
            boolean taken = isValid(bytes(parts[0]), bytes(parts[1]), bytes(parts[2]));
            System.out.println(taken ? "valid" : "invalid");
        }
    }

    static byte[] bytes(String digits) {
        return HexFormat.of().parseHex(digits);
    }

    static boolean isValid(byte[] key, byte[] message, byte[] signature) {
        try {
            return signerOf(key).verifySignature(message, signature);
        } catch (IOException | RuntimeException fault) {
            return false;
        }
    }

    static MessageSigner signerOf(byte[] key) throws IOException {
        if (key.length == LEVELS_BYTES + KEY_BYTES) {
            HSSSigner signer = new HSSSigner();
            signer.init(false, HSSPublicKeyParameters.getInstance(key));
            return signer;
        }
        LMSSigner signer = new LMSSigner();
        signer.init(false, LMSPublicKeyParameters.getInstance(key));
        return signer;
    }
}
